;;; vialshoal-evil-test.el --- Habits of Vim in Emacs  -*- lexical-binding: t; -*-

;;; Commentary:

;; With real engines, and Evil and undo-tree as Debian has them: keys that a
;; user of Vim types while others type, and what takes an edit back.

;;; Code:

(require 'vialshoal-terminal)

(defconst vialshoal-evil--packages
  '(dolist (folder (file-expand-wildcards "/usr/share/emacs/site-lisp/elpa/*"))
     (add-to-list 'load-path folder))
  "Has an Emacs find the packages of the system.")

(defconst vialshoal-evil--evil
  `(progn ,vialshoal-evil--packages
          (require 'evil)
          (evil-mode 1))
  "Has an Emacs have Evil.")

(defconst vialshoal-evil--evil-and-undo-tree
  `(progn ,vialshoal-evil--packages
          (require 'undo-tree)
          (setq undo-tree-auto-save-history nil)
          (global-undo-tree-mode 1)
          (require 'evil)
          (evil-mode 1)
          (evil-set-undo-system 'undo-tree)
          (setq-default evil-undo-system 'undo-tree))
  "Has an Emacs have Evil whose undo is that of undo-tree.")

(defconst vialshoal-evil--undo-tree
  `(progn ,vialshoal-evil--packages
          (require 'undo-tree)
          (setq undo-tree-auto-save-history nil)
          (global-undo-tree-mode 1))
  "Has an Emacs have undo-tree.")

(defmacro vialshoal-evil-with (prepares &rest body)
  "Run BODY with CHILD, an Emacs that PREPARES, and BO, another's buffer.
The note has the lines one, two, three and four; the cursor is at its begin."
  (declare (indent 1) (debug t))
  `(vialshoal-engine-with-folder
     (let ((log (expand-file-name "shared/note.log" vialshoal-engine--folder))
           (vialshoal-terminal--prepares ,prepares))
       (vialshoal-terminal-with "Ada" (log)
         (let ((bo (vialshoal-engine--open
                    "Bo" nil (vialshoal-engine--link "Ada"))))
           (vialshoal-engine--type bo "one\ntwo\nthree\nfour\n")
           (vialshoal-evil--has child "one\ntwo\nthree\nfour\n")
           (vialshoal-terminal--eval '(goto-char 1))
           ,@body)))))

(defun vialshoal-evil--has (_child text)
  "Wait until the Emacs CHILD has TEXT, with all answered."
  (vialshoal-engine--wait
   (lambda ()
     (equal text (vialshoal-terminal--eval
                  '(and (null vialshoal--changes)
                        (= vialshoal--made vialshoal--answered)
                        (buffer-substring-no-properties
                         (point-min) (point-max))))))))

(defun vialshoal-evil--types (child keys state)
  "Type KEYS into CHILD, and wait until it is in Evil's STATE.
Esc with a key right behind it would be that key with Alt."
  (vialshoal-terminal--type child keys)
  (vialshoal-engine--wait
   (lambda ()
     (vialshoal-terminal--eval
      `(and (eq evil-state ',state) (not (input-pending-p)))))))

(defun vialshoal-evil--others-insert (bo place text)
  "Have BO insert TEXT at PLACE, and wait until the Emacs has heard of it."
  (with-current-buffer bo
    (goto-char place)
    (vialshoal-engine--command #'insert text))
  ;; As JSON has it, where it waits.
  (vialshoal-terminal--has-heard (string-trim-right text)))

(defun vialshoal-evil--agree (bo text)
  "Check that BO, and in time the Emacs, has TEXT."
  (vialshoal-engine--shows bo text)
  (vialshoal-evil--has nil text))

(ert-deftest vialshoal-evil-u-takes-back-ones-own ()
  (dolist (prepares (list vialshoal-evil--evil
                          vialshoal-evil--evil-and-undo-tree))
    (vialshoal-evil-with prepares
      (vialshoal-evil--types child "jjohello\e" 'normal)
      (vialshoal-evil--agree bo "one\ntwo\nthree\nhello\nfour\n")
      (vialshoal-evil--others-insert bo 1 "a new line\n")
      (vialshoal-evil--has child "a new line\none\ntwo\nthree\nhello\nfour\n")
      (should (eq t (vialshoal-terminal--eval 'buffer-undo-list)))
      (vialshoal-terminal--type child "u")
      (vialshoal-evil--agree bo "a new line\none\ntwo\nthree\nfour\n")
      (vialshoal-terminal--type child "\C-r")
      (vialshoal-evil--agree bo "a new line\none\ntwo\nthree\nhello\nfour\n")
      ;; Each command is an edit of its own, and all that was inserted at once.
      (vialshoal-evil--types child "gg0xx" 'normal)
      (vialshoal-evil--agree bo "new line\none\ntwo\nthree\nhello\nfour\n")
      (vialshoal-terminal--type child "uu:undo\r")
      (vialshoal-evil--agree bo "a new line\none\ntwo\nthree\nfour\n"))))

(ert-deftest vialshoal-evil-keys-of-undo-tree-take-back-ones-own ()
  (vialshoal-evil-with vialshoal-evil--undo-tree
    (vialshoal-terminal--type child "mine")
    (vialshoal-evil--agree bo "mineone\ntwo\nthree\nfour\n")
    (vialshoal-evil--others-insert bo 9 "a new line\n")
    (vialshoal-evil--has child "mineone\na new line\ntwo\nthree\nfour\n")
    (vialshoal-terminal--type child "\C-_")
    (vialshoal-evil--agree bo "one\na new line\ntwo\nthree\nfour\n")
    (vialshoal-terminal--type child "\e_")
    (vialshoal-evil--agree bo "mineone\na new line\ntwo\nthree\nfour\n")
    (vialshoal-terminal--eval '(call-interactively
                                (key-binding (kbd "C-/"))))
    (vialshoal-evil--agree bo "one\na new line\ntwo\nthree\nfour\n")))

(ert-deftest vialshoal-evil-no-undo-list-is-played-back ()
  (vialshoal-engine-with-folder
    (let ((ada (vialshoal-engine--open "Ada")))
      (vialshoal-engine--type ada "mine\n")
      (with-current-buffer ada
        (vialshoal-engine--command
         (lambda ()
           (setq buffer-undo-list (list '(1 . 6)))))
        (should (eq buffer-undo-list t))
        (should (string-match-p
                 "own undo was refused"
                 (cadr (should-error (primitive-undo 1 (list '(1 . 6)))
                                     :type 'user-error))))
        (let ((clone (make-indirect-buffer ada "clone" t)))
          (with-current-buffer clone
            (should-error (primitive-undo 1 (list '(1 . 6)))
                          :type 'user-error))
          (kill-buffer clone))
        (should (equal (vialshoal-support--text) "mine\n"))))
    (with-temp-buffer
      (buffer-enable-undo)
      (insert "elsewhere")
      (primitive-undo 1 buffer-undo-list)
      (should (equal (buffer-string) "")))))

(ert-deftest vialshoal-evil-a-block-is-put-into-its-own-lines ()
  (vialshoal-evil-with vialshoal-evil--evil
    (vialshoal-evil--types child "\C-vjj" 'visual)
    (vialshoal-evil--types child "I> " 'insert)
    (vialshoal-engine--shows bo "> one\ntwo\nthree\nfour\n")
    (vialshoal-evil--others-insert bo 1 "new\n")
    (vialshoal-evil--types child "\e" 'normal)
    (vialshoal-evil--agree bo "new\n> one\n> two\n> three\nfour\n")
    (vialshoal-terminal--type child "u")
    (vialshoal-evil--agree bo "new\none\ntwo\nthree\nfour\n")
    ;; At the ends of lines, another line coming in between.
    (vialshoal-evil--types child "gg\C-v$jj" 'visual)
    (vialshoal-evil--types child "A!" 'insert)
    (vialshoal-engine--shows bo "new!\none\ntwo\nthree\nfour\n")
    (vialshoal-evil--others-insert bo 6 "another\n")
    (vialshoal-evil--types child "\e" 'normal)
    (vialshoal-evil--agree bo "new!\nanother\none!\ntwo!\nthree\nfour\n")
    (vialshoal-terminal--type child "u")
    (vialshoal-evil--agree bo "new\nanother\none\ntwo\nthree\nfour\n")))

(ert-deftest vialshoal-evil-lines-are-those-that-were-named ()
  (vialshoal-evil-with vialshoal-evil--evil
    (vialshoal-terminal--type child ":2,3d")
    (vialshoal-terminal--waits-for ":2,3d")
    (vialshoal-evil--others-insert bo 1 "new\n")
    (vialshoal-terminal--type child "\r")
    (vialshoal-evil--agree bo "new\none\nfour\n")
    ;; So they are where a command waits for a motion, or for a character.
    (vialshoal-terminal--type child "ggd")
    (vialshoal-engine--wait
     (lambda ()
       (vialshoal-terminal--eval '(eq evil-state 'operator))))
    (vialshoal-evil--others-insert bo 1 "newer\n")
    (vialshoal-evil--types child "d" 'normal)
    (vialshoal-evil--agree bo "newer\none\nfour\n")))

(ert-deftest vialshoal-evil-a-cursor-is-on-its-character ()
  (vialshoal-evil-with vialshoal-evil--evil
    (vialshoal-evil--others-insert bo 1 "x")
    (vialshoal-evil--has child "xone\ntwo\nthree\nfour\n")
    (vialshoal-terminal--type child "x")
    (vialshoal-evil--agree bo "xne\ntwo\nthree\nfour\n")
    ;; Where keys are text it is between two, and what others type is before.
    (vialshoal-evil--types child "j0v" 'visual)
    (vialshoal-evil--others-insert bo 5 "y")
    (vialshoal-evil--has child "xne\nytwo\nthree\nfour\n")
    (vialshoal-evil--types child "d" 'normal)
    (vialshoal-evil--agree bo "xne\nywo\nthree\nfour\n")))

(ert-deftest vialshoal-evil-w-saves-a-file ()
  (vialshoal-evil-with vialshoal-evil--evil
    (vialshoal-terminal--type child ":w\r")
    (vialshoal-terminal--waits-for "All is kept")
    (let ((path (expand-file-name "saved" vialshoal-engine--folder)))
      (vialshoal-terminal--type child (format ":w %s\r" path))
      (vialshoal-engine--wait (lambda () (file-exists-p path)))
      (vialshoal-terminal--waits-for "Saved as")
      (vialshoal-evil--types child "x" 'normal)
      (vialshoal-engine--shows bo "ne\ntwo\nthree\nfour\n")
      (vialshoal-terminal--type child (format ":w! %s\r" path))
      (vialshoal-engine--wait
       (lambda ()
         (with-temp-buffer
           (insert-file-contents path)
           (equal (buffer-string) "ne\ntwo\nthree\nfour\n"))))
      (should-not (vialshoal-terminal--eval 'buffer-file-name))
      (should (equal (vialshoal-terminal--eval '(buffer-name))
                     "*note picnic*")))))

(provide 'vialshoal-evil-test)
;;; vialshoal-evil-test.el ends here
