// What the page uses of CodeMirror that Debian's types for it leave out.
import "codemirror";

declare module "codemirror" {
  interface EditorConfiguration {
    specialCharPlaceholder?: (sign: string) => HTMLElement;
  }
  interface CommandActions {
    bold(cm: Editor): void;
    save(cm: Editor): void;
  }
  function keyName(event: KeyboardEvent, noShift?: boolean): string | false;
  function lookupKey(key: string, map: unknown, handle: (bound: unknown) => unknown, context?: Editor): string | undefined;
}
