;;; vialshoal-evil.el --- Notes under Evil  -*- lexical-binding: t; -*-

;;; Commentary:

;; Keys of Vim, as Evil has them, in a note: `u' and `C-r' ask the engine,
;; `:w' says that all is kept and `:w FILE' saves it as a file.  Others' text
;; waits while a command is typed that has places as numbers, as `:2,3d', or
;; while a block is typed into.

;;; Code:

(require 'vialshoal)

(defvar evil-insert-vcount)
(defvar evil-local-mode)
(defvar evil-redo-function)
(defvar evil-state)
(defvar evil-undo-function)
(defvar evil-undo-system)
(declare-function evil-visual-refresh "ext:evil-states")

(vialshoal--defvar vialshoal-evil--in-block nil
  "Whether lines wait for a block that is typed into.")

(defconst vialshoal-evil--typing '(insert replace)
  "The states in which keys are text.")

(defun vialshoal-evil--set-up ()
  "Have Evil's commands do in this buffer what is right in a note."
  (when (and vialshoal--note evil-local-mode)
    (advice-add 'evil-write :around #'vialshoal-evil--write)
    (advice-add 'evil-save :around #'vialshoal-evil--save)
    (vialshoal-evil--have-undo))
  (unless evil-local-mode
    (setq vialshoal--joins nil)))

(defun vialshoal-evil--have-undo ()
  "Have Evil's undo be the note's, whichever is chosen for other buffers."
  (setq-local evil-undo-system nil
              evil-undo-function #'vialshoal-undo
              evil-redo-function #'vialshoal-redo))

(defun vialshoal-evil--pre-command ()
  "Have others' text wait for a command, which is undone as one edit.
What is typed between two commands is one edit, too.  In the state that
has Emacs's own keys all is as without Evil."
  (vialshoal-evil--have-undo)
  (let ((state evil-state))
    (vialshoal--in-note
      (cond ((eq state 'emacs) (setq vialshoal--joins nil))
            ((not (memq state vialshoal-evil--typing))
             (setq vialshoal--joins 'begins)
             (vialshoal--hold-at (1+ (recursion-depth)) (current-buffer)))))))

(defun vialshoal-evil--post-command ()
  "Have others' text wait as long as a block is typed into.
As that ends it is put into the other lines, by their numbers."
  (let ((in-block (and (memq evil-state vialshoal-evil--typing)
                       evil-insert-vcount)))
    (vialshoal--in-note
      (cond ((and in-block (not vialshoal-evil--in-block))
             (vialshoal--begin-hold (current-buffer))
             (setq vialshoal-evil--in-block t))
            ((and vialshoal-evil--in-block (not in-block))
             (setq vialshoal-evil--in-block nil)
             (vialshoal--let-go (current-buffer)))))))

(defun vialshoal-evil--changed ()
  "Have what is selected be where point and the mark are now."
  (when (eq evil-state 'visual)
    (evil-visual-refresh)))

(defun vialshoal-evil--write (write beg end type file &optional bang)
  "Do what `:w' is to do in a note, or else WRITE with the same arguments.
A part, BEG to END with TYPE, goes to FILE as ever; BANG replaces one."
  (if (or (not (vialshoal--in-note vialshoal--note))
          (and beg end)
          (string-match-p "\\`\\(?:>>\\|!\\)" (or file "")))
      (funcall write beg end type file bang)
    (vialshoal-evil--save nil file bang)))

(defun vialshoal-evil--save (save file &optional bang)
  "Save a note as FILE, or else do SAVE with the same arguments.
A note has no file of its own.  With BANG, an old one is replaced."
  (cond ((not (vialshoal--in-note vialshoal--note))
         (funcall save file bang))
        ((string-empty-p (or file "")) (vialshoal-save))
        (t (vialshoal-save-as file bang))))

(provide 'vialshoal-evil)
;;; vialshoal-evil.el ends here
