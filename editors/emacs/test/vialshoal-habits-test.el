;;; vialshoal-habits-test.el --- Habits of Emacs  -*- lexical-binding: t; -*-

;;; Commentary:

;; With real engines: commands that hold places while others type, undo as
;; Emacs's users know it, and what opens a note again.

;;; Code:

(require 'bookmark)
(require 'desktop)
(require 'flyspell)
(require 'recentf)
(require 'vialshoal-terminal)

(ert-deftest vialshoal-habits-a-replacement-is-where-it-was-asked-for ()
  (vialshoal-engine-with-folder
    (let ((log (expand-file-name "shared/note.log" vialshoal-engine--folder)))
      (vialshoal-terminal-with "Ada" (log)
        (let ((bo (vialshoal-engine--open
                   "Bo" nil (vialshoal-engine--link "Ada"))))
          (vialshoal-terminal--type child "A foo and foo here\r")
          (vialshoal-engine--shows bo "A foo and foo here\n")
          (vialshoal-terminal--type child "\e<\e%foo\rbar\r")
          (vialshoal-terminal--waits-for "Query replacing")
          (with-current-buffer bo
            (goto-char 1)
            (vialshoal-engine--command #'insert "A line.\n"))
          (vialshoal-terminal--has-heard "A line.")
          (vialshoal-terminal--type child "yy")
          (vialshoal-engine--shows bo "A line.\nA bar and bar here\n")
          ;; It is one edit.
          (vialshoal-terminal--type child "\C-_")
          (vialshoal-engine--shows bo "A line.\nA foo and foo here\n")
          ;; What others are called is what the environment says.
          (with-current-buffer bo
            (vialshoal-engine--wait
             (lambda ()
               (cl-some (lambda (cursor)
                          (equal (plist-get cursor :name) "Ada"))
                        vialshoal--cursors)))))))))

(ert-deftest vialshoal-habits-a-region-is-the-one-that-was-chosen ()
  (vialshoal-engine-with-folder
    (let ((log (expand-file-name "shared/note.log" vialshoal-engine--folder)))
      (vialshoal-terminal-with "Ada" (log)
        (let ((bo (vialshoal-engine--open
                   "Bo" nil (vialshoal-engine--link "Ada"))))
          (vialshoal-terminal--type child "keep foo\rfoo\rfoo\r")
          (vialshoal-engine--shows bo "keep foo\nfoo\nfoo\n")
          (dolist (keys '("\ex" "\C-g\ex"))
            ;; With the region of a few lines that is shown, and, where none
            ;; is shown, with that which begins at the mark.
            (vialshoal-terminal--eval
             `(setq transient-mark-mode ,(equal keys "\ex")))
            (vialshoal-terminal--type
             child (concat "\e<\C-n\C-@\C-n" (substring keys -2)
                           "string-rectangle\r"))
            (vialshoal-terminal--waits-for "String rectangle")
            (with-current-buffer bo
              (goto-char 1)
              (vialshoal-engine--command #'insert "new\n"))
            (vialshoal-terminal--has-heard "new")
            (vialshoal-terminal--type child "> \r")
            (vialshoal-engine--wait
             (lambda ()
               (string-match-p "\\`new\nkeep foo\n> foo\n> foo\n\\'"
                               (vialshoal-support--text bo))))
            (vialshoal-terminal--type child "\C-_")
            (vialshoal-engine--shows bo "new\nkeep foo\nfoo\nfoo\n")
            (with-current-buffer bo
              (vialshoal-engine--command #'delete-region 1 5))
            (vialshoal-engine--wait
             (lambda ()
               (equal (vialshoal-terminal--eval '(buffer-string))
                      "keep foo\nfoo\nfoo\n")))))))))

(ert-deftest vialshoal-habits-a-rectangle-is-in-its-lines ()
  (vialshoal-engine-with-folder
    (let ((log (expand-file-name "shared/note.log" vialshoal-engine--folder)))
      (vialshoal-terminal-with "Ada" (log)
        (let ((bo (vialshoal-engine--open
                   "Bo" nil (vialshoal-engine--link "Ada"))))
          (vialshoal-terminal--type child "a\rb\rc\rd\r")
          (vialshoal-engine--shows bo "a\nb\nc\nd\n")
          (vialshoal-terminal--type child "\e<\C-n\C-@\C-n\C-n\C-xrt")
          (vialshoal-terminal--waits-for "String rectangle")
          ;; Another opens a line just where the rectangle begins.
          (with-current-buffer bo
            (goto-char 3)
            (vialshoal-engine--command #'insert "NEW\n"))
          (vialshoal-terminal--has-heard "NEW")
          (vialshoal-terminal--type child "> \r")
          (vialshoal-engine--shows bo "a\nNEW\n> b\n> c\n> d\n"))))))

(defconst vialshoal-habits--speller
  "#!/bin/sh
case \"$*\" in *-vv*) echo '@(#) International Ispell Version 3.3.02'; exit;; esac
echo '@(#) International Ispell Version 3.3.02'
while read -r line; do
  case $line in *teh*) echo '& teh 1 0: the'; echo;; ^*) echo;; esac
done
"
  "A program that knows one word that is misspelled.")

(defun vialshoal-habits--speller ()
  "Return the path of that program."
  (let ((path (expand-file-name "speller" vialshoal-engine--folder)))
    (write-region vialshoal-habits--speller nil path)
    (set-file-modes path #o700)
    path))

(defconst vialshoal-habits--dictionary
  '("none" "[[:alpha:]]" "[^[:alpha:]]" "" nil nil nil utf-8)
  "What it needs to be told.")

(ert-deftest vialshoal-habits-a-word-is-corrected-where-it-was ()
  (vialshoal-engine-with-folder
    (let ((log (expand-file-name "shared/note.log" vialshoal-engine--folder))
          (speller (vialshoal-habits--speller)))
      (vialshoal-terminal-with "Ada" (log)
        (let ((bo (vialshoal-engine--open
                   "Bo" nil (vialshoal-engine--link "Ada"))))
          (vialshoal-terminal--eval
           `(setq ispell-program-name ,speller ispell-dictionary "none"
                  ispell-local-dictionary-alist
                  '(,vialshoal-habits--dictionary)))
          (vialshoal-terminal--type child "a b c teh d\r\e<\C-f\C-f\C-f\C-f\C-f\C-f")
          (vialshoal-engine--shows bo "a b c teh d\n")
          (vialshoal-terminal--type child "\e$")
          (vialshoal-engine--wait
           (lambda ()
             (vialshoal-terminal--eval
              '(buffer-live-p (get-buffer "*Choices*")))))
          (with-current-buffer bo
            (goto-char 1)
            (vialshoal-engine--command #'insert "A line.\n"))
          (vialshoal-terminal--has-heard "A line.")
          (vialshoal-terminal--type child "0")
          (vialshoal-engine--shows bo "A line.\na b c the d\n"))))))

(ert-deftest vialshoal-habits-flyspell-corrects-the-word-that-was-asked-for ()
  (vialshoal-engine-with-folder
    (pcase-let* ((`(,ada ,bo) (vialshoal-engine--two))
                 (ispell-program-name (vialshoal-habits--speller))
                 (ispell-dictionary "none")
                 (ispell-local-dictionary-alist
                  (list vialshoal-habits--dictionary)))
      (vialshoal-engine--type ada "a b c teh d")
      (vialshoal-engine--shows bo "a b c teh d")
      (cl-letf (((symbol-function 'flyspell-emacs-popup)
                 (lambda (&rest _)
                   (with-current-buffer bo
                     (goto-char 1)
                     (vialshoal-engine--command #'insert "A line.\n"))
                   (vialshoal-engine--wait
                    (lambda ()
                      (with-current-buffer ada
                        (or vialshoal--lines
                            (string-prefix-p "A line" (buffer-string))))))
                   "the")))
        (with-current-buffer ada
          (goto-char 8)
          (vialshoal-engine--command #'flyspell-correct-word-before-point)))
      (ispell-kill-ispell t)
      (vialshoal-engine--shows bo "A line.\na b c the d"))))

(defconst vialshoal-habits--forgetful
  "import sys
sys.path[0] = %S
from share.engine import transform
transform.MOST_SENT = 300
from share.cli.main import main
sys.exit(main())
"
  "An engine that doesn't remember every version for long.")

(ert-deftest vialshoal-habits-however-much-waits-a-command-is-carried-over ()
  (vialshoal-engine-with-folder
    (let ((vialshoal-command
           (list "/usr/bin/python3" "-B" "-c"
                 (format vialshoal-habits--forgetful
                         (directory-file-name vialshoal-engine--top)))))
      (let ((ada (vialshoal-engine--open "Ada"))
            (bo (vialshoal-engine--open "Ada"))
            (came 0))
        (vialshoal-engine--type ada "foo and foo")
        (vialshoal-engine--shows bo "foo and foo")
        ;; A version of which the engine hasn't heard that it is here.
        (with-current-buffer bo
          (vialshoal-engine--command #'goto-char 1))
        (vialshoal-engine--type bo ".")
        (vialshoal-engine--shows ada ".foo and foo")
        (with-current-buffer bo
          (vialshoal-engine--command #'goto-char 1))
        (cl-letf (((symbol-function 'read-event)
                   (lambda (&rest _)
                     (while (< came 400)
                       (vialshoal-engine--type bo "x")
                       (vialshoal-engine--wait
                        (lambda () (vialshoal-engine--is-quiet bo)))
                       (cl-incf came))
                     ?y)))
          (with-current-buffer ada
            (vialshoal-engine--wait (lambda () (vialshoal-engine--is-quiet ada)))
            (goto-char 1)
            (perform-replace "foo" "bar" t nil nil)))
        (should (equal (vialshoal-engine--meet (list ada bo))
                       (concat (make-string 400 ?x) ".bar and bar")))))))

(ert-deftest vialshoal-habits-who-is-sent-the-text-anew-is-told ()
  (vialshoal-engine-with-folder
    (let ((ada (vialshoal-engine--open "Ada")))
      (vialshoal-engine--type ada "tea")
      (vialshoal-engine--wait (lambda () (vialshoal-engine--is-quiet ada)))
      (with-current-buffer ada
        ;; A version that never was.
        (setq vialshoal--version 99)
        (vialshoal-engine--command #'insert "!")
        (vialshoal-engine--wait (lambda () (vialshoal-engine--is-quiet ada)))
        (should (equal (vialshoal-support--text) "tea"))
        ;; The place of the cursor, of that version too, is refused besides.
        (should (string-match-p
                 (concat "\\`There is no version 99 that this editor can have\\."
                         ".*  The note has another text; that of before is in "
                         "\\*picnic as it was here\\*\\'")
                 vialshoal--words))
        (should (equal vialshoal-again--words "!"))
        (vialshoal-put-back)
        (vialshoal-engine--shows ada "tea!"))
      (kill-buffer "*picnic as it was here*"))))

(ert-deftest vialshoal-habits-undo-takes-a-count-and-a-region ()
  (vialshoal-engine-with-folder
    (let ((ada (vialshoal-engine--open "Ada")) (transient-mark-mode t))
      (with-current-buffer ada
        (dolist (word '("four\n" "three\n" "two\n" "one\n"))
          (goto-char 1)
          (vialshoal-engine--command #'insert word)))
      (vialshoal-engine--wait (lambda () (vialshoal-engine--is-quiet ada)))
      (with-current-buffer ada
        (vialshoal-undo 2)
        (vialshoal-engine--shows ada "three\nfour\n")
        (vialshoal-redo 2)
        (vialshoal-engine--shows ada "one\ntwo\nthree\nfour\n")
        ;; The last edit in the region, which stays.
        (goto-char 9)
        (push-mark 15 t t)
        (vialshoal-undo)
        (vialshoal-engine--shows ada "one\ntwo\nfour\n")
        (should (equal (list mark-active (point) (mark)) '(t 9 9)))
        ;; By C-u the mark is enough; and there may be nothing in between.
        (deactivate-mark)
        (goto-char 2)
        (set-marker (mark-marker) 4)
        (let (said)
          (cl-letf (((symbol-function 'message)
                     (lambda (format &rest rest)
                       (setq said (apply #'format format rest)))))
            (vialshoal-undo '(4))
            (vialshoal-engine--wait (lambda () said)))
          (should (equal said "You have nothing to take back in the region")))
        (goto-char 1)
        (set-marker (mark-marker) 9)
        (vialshoal-undo '(4))
        (vialshoal-engine--shows ada "two\nfour\n")
        ;; A count takes back so many of them.
        (goto-char 1)
        (push-mark 10 t t)
        (vialshoal-undo 2)
        (vialshoal-engine--shows ada "")
        (deactivate-mark)
        (vialshoal-redo 4)
        (vialshoal-engine--shows ada "one\ntwo\nthree\nfour\n")))))

(ert-deftest vialshoal-habits-an-indirect-buffer-is-a-part-of-the-note ()
  (vialshoal-engine-with-folder
    (pcase-let* ((`(,ada ,bo) (vialshoal-engine--two))
                 (clone nil))
      (vialshoal-engine--type ada "one\ntwo\n")
      (vialshoal-engine--shows bo "one\ntwo\n")
      (with-current-buffer ada
        (vialshoal--show-cursors '((:who 2 :name "Bo" :at 1)))
        (setq clone (make-indirect-buffer ada "clone" t))
        (narrow-to-region 1 4))
      (with-current-buffer clone
        (vialshoal-engine--command #'goto-char 1)
        (should-not (overlays-in (point-min) (point-max)))
        (should (equal (vialshoal--lighter)
                       (with-current-buffer ada (vialshoal--lighter))))
        (goto-char 5)
        (vialshoal-engine--command #'insert "in between, "))
      (vialshoal-engine--shows bo "one\nin between, two\n")
      (vialshoal-engine--meet (list ada bo))
      (with-current-buffer clone
        (vialshoal-undo))
      (vialshoal-engine--shows bo "one\ntwo\n")
      (kill-buffer clone)
      (should (process-live-p
               (buffer-local-value 'vialshoal--process ada)))
      (with-current-buffer ada
        (widen)
        (goto-char 1))
      (vialshoal-engine--type ada "on: ")
      (vialshoal-engine--shows bo "on: one\ntwo\n"))))

(ert-deftest vialshoal-habits-no-buffer-is-made-for-a-name-that-is-none ()
  (vialshoal-engine-with-folder
    (dolist (name (list "café" "" ".hidden" "a b" (make-string 65 ?a)))
      (should-error (vialshoal-open name) :type 'user-error)
      (should-not (get-buffer (format "*note %s*" name))))))

;; What `vialshoal-open' asks is answered in place of the user.
(ert-deftest vialshoal-habits-a-typing-error-makes-no-note ()
  (vialshoal-engine-with-folder
    (let* ((data (expand-file-name "Ada" vialshoal-engine--folder))
           (process-environment
            (cons (concat "VIALSHOAL_DATA=" data) process-environment))
           (names nil) (typed "picnik") (answer nil) (asked nil))
      (vialshoal-engine--open "Ada")
      (cl-letf (((symbol-function 'completing-read)
                 (lambda (_ table &rest _) (setq names table) typed))
                ((symbol-function 'y-or-n-p)
                 (lambda (words) (setq asked words) answer)))
        (let ((buffer (call-interactively #'vialshoal-open)))
          (vialshoal-engine--wait (lambda () (not (buffer-live-p buffer)))))
        (should (string-match-p "no note picnik here" asked))
        (should (equal names '("picnic")))
        (should-not (file-exists-p
                     (expand-file-name "notes/picnik.note" data)))
        (setq typed "plan" answer t)
        (with-current-buffer (call-interactively #'vialshoal-open)
          (vialshoal-engine--wait (lambda () vialshoal--is-open))
          (should (equal (vialshoal--names) '("picnic" "plan")))
          (kill-buffer))))))

(defmacro vialshoal-habits--with-closed-note (&rest body)
  "Run BODY with the note picnic of Ada closed, and its folder set."
  (declare (indent 0) (debug t))
  `(vialshoal-engine-with-folder
     (let ((process-environment
            (cons (format "VIALSHOAL_DATA=%s/Ada" vialshoal-engine--folder)
                  process-environment))
           (ada (vialshoal-engine--open "Ada")))
       (vialshoal-engine--type ada "one\ntwo\nthree\n")
       (with-current-buffer ada
         (rename-buffer "*note picnic*")
         (goto-char 5))
       ,@body)))

(defun vialshoal-habits--close ()
  "Close the note picnic."
  (vialshoal-engine--wait
   (lambda () (vialshoal-engine--is-quiet "*note picnic*")))
  (kill-buffer "*note picnic*"))

(defun vialshoal-habits--is-back-at (place)
  "Wait until the note picnic is open again with point at PLACE."
  (with-current-buffer (vialshoal-engine--wait
                        (lambda () (get-buffer "*note picnic*")))
    (vialshoal-engine--wait (lambda () vialshoal--is-open))
    (should (equal (vialshoal-support--text) "one\ntwo\nthree\n"))
    (should (= (point) place))))

(ert-deftest vialshoal-habits-a-bookmark-opens-the-note ()
  (vialshoal-habits--with-closed-note
    (let* ((bookmark-alist nil) (bookmark-watch-bookmark-file nil)
           (bookmark-default-file
            (expand-file-name "bookmarks" vialshoal-engine--folder)))
      (with-current-buffer ada
        (bookmark-set "here"))
      (bookmark-save)
      (with-temp-buffer
        (insert-file-contents bookmark-default-file)
        ;; Others' text is in no file of bookmarks, which anybody may read.
        (should-not (string-match-p "three" (buffer-string))))
      (vialshoal-habits--close)
      (bookmark-jump "here")
      (vialshoal-habits--is-back-at 5)
      (with-current-buffer "*note picnic*"
        (goto-char 1))
      (bookmark-jump "here")
      (vialshoal-habits--is-back-at 5))))

(ert-deftest vialshoal-habits-a-desktop-opens-the-note ()
  (vialshoal-habits--with-closed-note
    (let ((folder (expand-file-name "desktop/" vialshoal-engine--folder))
          (desktop-restore-frames nil))
      (make-directory folder)
      (make-indirect-buffer ada "clone" t)
      (desktop-save folder t)
      (vialshoal-habits--close)
      ;; A batch reads no desktop.
      (let ((noninteractive nil) (desktop-load-locked-desktop t))
        (desktop-read folder))
      (vialshoal-habits--is-back-at 5)
      (should-not (get-buffer "clone"))
      (desktop-release-lock))))

(ert-deftest vialshoal-habits-recent-files-have-the-note ()
  (vialshoal-habits--with-closed-note
    (let* ((recentf-save-file
            (expand-file-name "recentf" vialshoal-engine--folder))
           (recentf-list nil) (recentf-mode t))
      (vialshoal-habits--close)
      (kill-buffer (vialshoal-open "picnic"))
      (recentf-cleanup)
      (recentf-save-list)
      (setq recentf-list nil)
      (load recentf-save-file nil t)
      (should (equal recentf-list '("/vialshoal:picnic")))
      (require 'tramp)
      (find-file (car recentf-list))
      (vialshoal-habits--is-back-at 1)
      (should (equal (buffer-name) "*note picnic*"))
      (should-not buffer-file-name)
      (should-error (write-region "x" nil "/vialshoal:picnic")
                    :type 'user-error)
      (should (file-directory-p "/tmp")))))

(provide 'vialshoal-habits-test)
;;; vialshoal-habits-test.el ends here
