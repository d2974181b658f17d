;;; vialshoal-review-engine-test.el --- Reviews with real engines  -*- lexical-binding: t; -*-

;;; Commentary:

;; Remarks, suggestions and what changed, between two people whose note
;; engines have open.

;;; Code:

(require 'vialshoal-changed)
(require 'vialshoal-suggesting)
(require 'vialshoal-terminal)

(defmacro vialshoal-review-engine-with-two (text &rest body)
  "Run BODY with Ada and Bo in buffers `ada' and `bo' of a note with TEXT."
  (declare (indent 1) (debug t))
  `(vialshoal-engine-with-folder
     (let ((process-environment
            (append '("VIALSHOAL_FORM=2" "VIALSHOAL_ZERO_BITS=0")
                    process-environment)))
       (pcase-let ((`(,ada ,bo) (vialshoal-engine--two)))
         (vialshoal-engine--type ada ,text)
         (vialshoal-engine--shows bo ,text)
         ,@body))))

(defun vialshoal-review-engine--threads (buffer)
  "Return what BUFFER shows: a beginning, an end, a face and a thread each."
  (with-current-buffer buffer
    (sort (mapcar (lambda (mark)
                    (list (overlay-start mark) (overlay-end mark)
                          (overlay-get mark 'face)
                          (overlay-get mark 'vialshoal-thread)))
                  vialshoal-review--marks)
          (lambda (one other) (< (car one) (car other))))))

(defun vialshoal-review-engine--shows (buffer &rest marks)
  "Wait until BUFFER has MARKS: a beginning, an end and a face each."
  (condition-case nil
      (vialshoal-engine--wait
       (lambda ()
         (equal marks (mapcar (lambda (mark) (seq-take mark 3))
                              (vialshoal-review-engine--threads buffer)))))
    (error (should (equal marks (vialshoal-review-engine--threads buffer))))))

(defun vialshoal-review-engine--says (buffer words)
  "Wait until the first thread of BUFFER says WORDS."
  (let (found)
    (condition-case nil
        (vialshoal-engine--wait
         (lambda ()
           (setq found (nth 3 (car (vialshoal-review-engine--threads buffer)))
                 found (and found (vialshoal-review--as-text found)))
           (and found (string-search words found))))
      (error (should (equal words found))))))

(defun vialshoal-review-engine--do (buffer place command &optional words)
  "Call COMMAND at PLACE of BUFFER, which is answered WORDS if it asks."
  (with-current-buffer buffer
    (goto-char place)
    (cl-letf (((symbol-function 'read-string) (lambda (&rest _) words)))
      (vialshoal-engine--command #'call-interactively command))))

(ert-deftest vialshoal-review-engine-a-thread-is-begun-answered-and-resolved ()
  (vialshoal-review-engine-with-two "tea and jam\n"
    (with-current-buffer bo
      (vialshoal-remark 9 12 "Which one?"))
    (vialshoal-review-engine--shows ada '(9 12 vialshoal-remark))
    (vialshoal-review-engine--shows bo '(9 12 vialshoal-remark))
    (vialshoal-review-engine--says ada "On \"jam\"\nBo")
    (vialshoal-review-engine--says ada ": Which one?")
    (vialshoal-review-engine--do ada 10 #'vialshoal-reply "Plum.")
    (vialshoal-review-engine--says bo ": Plum.")
    (vialshoal-review-engine--do bo 10 #'vialshoal-revise "Which?")
    (vialshoal-review-engine--says ada " (revised): Which?")
    ;; Text that comes in before it moves it.
    (with-current-buffer ada
      (goto-char 1)
      (vialshoal-engine--command #'insert "> "))
    (vialshoal-review-engine--shows bo '(11 14 vialshoal-remark))
    (vialshoal-review-engine--do ada 12 #'vialshoal-resolve)
    (vialshoal-review-engine--shows bo '(11 14 nil))
    (vialshoal-review-engine--do bo 12 #'vialshoal-reopen)
    (vialshoal-review-engine--shows ada '(11 14 vialshoal-remark))
    (vialshoal-engine--wait
     (lambda () (string-match-p ", 1 remark" (with-current-buffer ada
                                               (vialshoal--lighter)))))
    ;; Nobody takes back what is another's; the reply is Ada's.
    (vialshoal-review-engine--do ada 12 #'vialshoal-withdraw)
    (vialshoal-review-engine--says bo ": taken back")
    (vialshoal-review-engine--says ada ": taken back")
    (should-error (vialshoal-review-engine--do ada 12 #'vialshoal-withdraw)
                  :type 'user-error)
    (vialshoal-review-engine--do bo 12 #'vialshoal-withdraw)
    (vialshoal-review-engine--shows ada '(11 14 nil))
    (vialshoal-review-engine--says ada " (taken)")))

(ert-deftest vialshoal-review-engine-a-suggestion-is-accepted-or-rejected ()
  (vialshoal-review-engine-with-two "tea and jam\n"
    (with-current-buffer bo
      (vialshoal-suggest 9 12 "honey 🍯"))
    (vialshoal-review-engine--shows ada '(9 12 vialshoal-suggestion))
    (should (equal (vialshoal-support--text ada) "tea and jam\n"))
    (vialshoal-review-engine--do ada 10 #'vialshoal-accept)
    (vialshoal-engine--shows ada "tea and honey 🍯\n")
    (vialshoal-engine--shows bo "tea and honey 🍯\n")
    (with-current-buffer ada
      (vialshoal-undo))
    (vialshoal-engine--shows bo "tea and jam\n")
    (vialshoal-review-engine--shows ada '(9 12 vialshoal-suggestion))
    (vialshoal-review-engine--do ada 10 #'vialshoal-reject)
    (vialshoal-review-engine--shows bo '(9 12 nil))
    (vialshoal-review-engine--says bo "(rejected)")))

(ert-deftest vialshoal-review-engine-what-has-changed-is-asked-about ()
  (vialshoal-review-engine-with-two "tea and jam\n"
    (with-current-buffer bo
      (vialshoal-suggest 9 12 "honey"))
    (vialshoal-review-engine--shows ada '(9 12 vialshoal-suggestion))
    (with-current-buffer ada
      (goto-char 10)
      (vialshoal-engine--command #'insert "X"))
    (vialshoal-review-engine--shows ada '(9 13 vialshoal-suggestion))
    (vialshoal-review-engine--do ada 10 #'vialshoal-accept)
    (let ((name (with-current-buffer ada
                  (vialshoal-review--name-of-changed
                   (overlay-get (car vialshoal-review--marks)
                                'vialshoal-thread)))))
      (vialshoal-engine--wait (lambda () (get-buffer name)))
      (should (string-match-p "was:\njam\n\n.*now:\njXam\n\n.*be:\nXhoney\n"
                              (vialshoal-support--text name))))
    (should-not (string-search "honey" (vialshoal-support--text bo)))
    (vialshoal-review-engine--do ada 10 #'vialshoal-accept-anyway)
    (vialshoal-engine--wait
     (lambda () (string-search "honey" (vialshoal-support--text bo))))
    (vialshoal-engine--meet (list ada bo))))

(ert-deftest vialshoal-review-engine-what-is-typed-accepts-nothing ()
  (vialshoal-engine-with-folder
    (let ((process-environment
           (append '("VIALSHOAL_FORM=2" "VIALSHOAL_ZERO_BITS=0")
                   process-environment))
          (log (expand-file-name "shared/note.log" vialshoal-engine--folder)))
      (vialshoal-terminal-with "Ada" (log)
        (let ((bo (vialshoal-engine--open
                   "Bo" nil (vialshoal-engine--link "Ada"))))
          (vialshoal-terminal--type child "tea and jam\r")
          (vialshoal-engine--shows bo "tea and jam\n")
          (with-current-buffer bo
            (vialshoal-suggest 9 12 "honey")
            (goto-char 10)
            (vialshoal-engine--command #'insert "X"))
          (vialshoal-engine--wait
           (lambda ()
             (vialshoal-terminal--eval
              '(cl-some (lambda (mark)
                          (equal (plist-get
                                  (overlay-get mark 'vialshoal-thread) :changed)
                                 t))
                        vialshoal-review--marks))))
          ;; The answer comes while Ada types, and asks nothing.
          (vialshoal-terminal--type
           child "\e<\ef\ef\C-f\exvialshoal-accept\ry y y\r")
          (vialshoal-engine--wait
           (lambda ()
             (vialshoal-terminal--eval
              '(cl-some (lambda (buffer)
                          (string-prefix-p "*accept " (buffer-name buffer)))
                        (buffer-list)))))
          (vialshoal-terminal--type child "a y y\r")
          (vialshoal-engine--shows bo "tea and y y y\na y y\njXam\n")
          (vialshoal-terminal--type child "\C-f\exvialshoal-accept-anyway\r")
          (vialshoal-engine--wait
           (lambda ()
             (string-search "honey" (vialshoal-support--text bo)))))))))

(ert-deftest vialshoal-review-engine-nothing-of-a-body-is-obeyed ()
  (vialshoal-review-engine-with-two "tea\n"
    (with-current-buffer bo
      (vialshoal-remark 1 4 "%s \\[kill-emacs]\e]0;x\a\u202e<b>\n-*- mode: lisp -*-"))
    (vialshoal-review-engine--shows ada '(1 4 vialshoal-remark))
    (with-current-buffer ada
      (let ((shown "%s \\[kill-emacs]\ufffd]0;x\ufffd\ufffd<b>\n-*-"))
        (should (string-search
                 shown (substitute-command-keys
                        (funcall (overlay-get (car vialshoal-review--marks)
                                              'help-echo)))))
        (goto-char 2)
        (call-interactively #'vialshoal-show-remark)
        (with-current-buffer "*remark*"
          (should (string-search shown (buffer-string)))
          (should (derived-mode-p 'special-mode)))))))

(ert-deftest vialshoal-review-engine-a-region-is-the-one-that-was-chosen ()
  (vialshoal-engine-with-folder
    (let ((process-environment
           (append '("VIALSHOAL_FORM=2" "VIALSHOAL_ZERO_BITS=0")
                   process-environment))
          (log (expand-file-name "shared/note.log" vialshoal-engine--folder)))
      (vialshoal-terminal-with "Ada" (log)
        (let ((bo (vialshoal-engine--open
                   "Bo" nil (vialshoal-engine--link "Ada"))))
          (vialshoal-terminal--type child "tea and jam\r")
          (vialshoal-engine--shows bo "tea and jam\n")
          (vialshoal-terminal--type
           child "\e<\ef\C-f\C-@\ef\exvialshoal-remark\r")
          (vialshoal-terminal--waits-for "Remark: ")
          (with-current-buffer bo
            (goto-char 1)
            (vialshoal-engine--command #'insert "new\n"))
          (vialshoal-terminal--has-heard "new")
          (vialshoal-terminal--type child "Why?\r")
          (vialshoal-review-engine--shows bo '(9 12 vialshoal-remark))
          (vialshoal-review-engine--says bo ": Why?")
          (vialshoal-terminal--type child "\exvialshoal-suggest-mode\r")
          (vialshoal-terminal--type child "\e>\C-b\C-?\C-?\C-?rum")
          (vialshoal-review-engine--shows bo '(9 12 vialshoal-remark)
                                          '(13 16 vialshoal-suggestion))
          (should (equal (vialshoal-support--text bo) "new\ntea and jam\n"))
          (vialshoal-review-engine--do bo 13 #'vialshoal-accept)
          (vialshoal-engine--shows bo "new\ntea and rum\n"))))))

(ert-deftest vialshoal-review-engine-the-list-follows ()
  (vialshoal-review-engine-with-two "tea and jam\n"
    (with-current-buffer ada
      (save-window-excursion
        (vialshoal-remarks)))
    (let ((list (get-buffer "*remarks of picnic*")))
      (with-current-buffer bo
        (vialshoal-remark 9 12 "Which one?"))
      (vialshoal-engine--wait
       (lambda () (string-search "Which one?" (vialshoal-support--text list))))
      (with-current-buffer list
        (goto-char (point-min))
        (call-interactively #'vialshoal-resolve))
      (vialshoal-engine--wait
       (lambda () (string-empty-p (vialshoal-support--text list))))
      (kill-buffer list))))

(ert-deftest vialshoal-review-engine-the-first-form-has-no-margin ()
  (vialshoal-engine-with-folder
    (let ((process-environment (cons "VIALSHOAL_FORM=1" process-environment))
          (ada (vialshoal-engine--open "Ada")))
      (vialshoal-engine--type ada "tea")
      (with-current-buffer ada
        (vialshoal-remark 1 4 "Which one?")
        (vialshoal-engine--wait
         (lambda () (string-prefix-p "This note has no margin"
                                     (or vialshoal--words ""))))))))

(ert-deftest vialshoal-review-engine-what-is-typed-is-suggested ()
  (vialshoal-review-engine-with-two "tea and jam\n"
    (with-current-buffer bo
      (vialshoal-suggest-mode)
      (goto-char 12)
      (dolist (_ '(1 2 3))
        (vialshoal-suggesting--pre-command)
        (vialshoal-engine--command #'delete-char -1)))
    (vialshoal-engine--type bo "honey")
    (should (equal (vialshoal-support--text bo) "tea and jam\n"))
    (vialshoal-review-engine--shows ada '(9 12 vialshoal-suggestion))
    (vialshoal-review-engine--shows bo '(9 12 vialshoal-suggestion))
    (should (equal (vialshoal-support--text ada) "tea and jam\n"))
    (vialshoal-review-engine--do ada 10 #'vialshoal-accept)
    (vialshoal-engine--shows bo "tea and honey\n")))

(ert-deftest vialshoal-review-engine-who-comes-back-sees-what-changed ()
  (vialshoal-review-engine-with-two "tea and jam\n"
    (with-current-buffer bo
      (vialshoal-engine--meet (list ada bo)))
    (kill-buffer ada)
    (with-current-buffer bo
      (goto-char 4)
      (vialshoal-engine--type bo " 🍰")
      (vialshoal-engine--command #'delete-region 7 11))
    (vialshoal-engine--wait (lambda () (vialshoal-engine--is-quiet bo)))
    (let ((ada (vialshoal-engine--open "Ada")))
      (vialshoal-engine--shows ada "tea 🍰 jam\n")
      (with-current-buffer ada
        (vialshoal-changed)
        (vialshoal-engine--wait (lambda () vialshoal-changed-mode))
        (should (equal (mapcar (lambda (mark)
                                 (list (overlay-start mark) (overlay-end mark)
                                       (overlay-get mark 'vialshoal-words)))
                               vialshoal-changed--marks)
                       '((4 6 "Came, of Bo") (7 7 "Went, of you, by Bo: and "))))))))

(provide 'vialshoal-review-engine-test)
;;; vialshoal-review-engine-test.el ends here
