"""Takes the chunks of a script in by the library, in a text that has ended the noting of changes, and answers as the program does; so it
answers what one site lacks. The library is the one that the only word names."""
import os
import sys

from measuring import TOP

sys.path.insert(0, str(TOP / "library" / "python"))
[_, os.environ["VIALSHOAL_LIBRARY"]] = sys.argv

from vialshoal import Text  # noqa: E402


def main() -> None:
    with Text(1, site=2) as text:
        text.end_noting()
        for line in sys.stdin:
            match line.split():
                case [_, "unpack", _, chunk]:
                    text.unpack(bytes.fromhex(chunk))
                    print("unpacked")
                case [_, "since", _, site, front]:
                    for message in text.since({int(site): int(front)}):
                        print("message", message.hex())
        if text.changes() or text.replacement().inserted != len(text):
            sys.exit("changes were noted")


if __name__ == "__main__":
    main()
