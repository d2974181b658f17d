;;; vialshoal-suggesting-test.el --- Typed suggestions  -*- lexical-binding: t; -*-

;;; Commentary:

;; What is suggested of what is typed, with no engine.

;;; Code:

(require 'vialshoal-support)
(require 'vialshoal-suggesting)
(require 'vialshoal-vectors-test)

(defmacro vialshoal-suggesting-test--with (text &rest body)
  "Run BODY in a note that has TEXT, in which one suggests."
  (declare (indent 1) (debug t))
  `(vialshoal-support-with-note
       (list :answer "open" :id 0 :note "picnic" :text ,text :version 0
             :edits 0)
     (vialshoal-suggest-mode)
     ,@body))

(defun vialshoal-suggesting-test--do (function &rest arguments)
  "Call FUNCTION with ARGUMENTS as a command of the user's."
  (vialshoal-suggesting--pre-command)
  (vialshoal--pre-command)
  (apply function arguments)
  (vialshoal--post-command)
  (vialshoal-suggesting--post-command))

(defun vialshoal-suggesting-test--type (text)
  "Type TEXT; a DEL deletes backwards, and a C-d forwards."
  (seq-doseq (char text)
    (pcase char
      (?\d (vialshoal-suggesting-test--do #'delete-char -1))
      (?\C-d (vialshoal-suggesting-test--do #'delete-char 1))
      (_ (vialshoal-suggesting-test--do #'insert char)))))

(defun vialshoal-suggesting-test--made ()
  "Return what is suggested: a beginning, an end and a text each."
  (vialshoal-suggesting--finish)
  (mapcar (lambda (line)
            (should (equal (plist-get line :do) "suggest"))
            (list (plist-get line :begin) (plist-get line :end)
                  (plist-get line :new)))
          (vialshoal-support--sent)))

(ert-deftest vialshoal-suggesting-what-is-typed-is-a-suggestion ()
  (pcase-dolist
      (`(,place ,keys . ,made)
       '((4 " and jam" (3 3 " and jam"))
         (5 "\d\d" (2 4 ""))
         (1 "\C-d\C-d" (0 2 ""))
         ;; What was typed is taken back, and then what is before it.
         (4 "xyz\d" (3 3 "xy"))
         (4 "xy\d\d\dz" (2 3 "z"))
         (4 "x\d")
         ;; What is deleted gives way to what is typed.
         (4 "\d\djam" (1 3 "jam"))
         (2 "\C-d\C-djam\d" (1 3 "ja"))
         ;; Equal characters.
         (3 "eee" (2 2 "eee"))
         (8 "\d\d" (5 7 ""))))
    (vialshoal-suggesting-test--with "tea\naaaa\n"
      (goto-char place)
      (vialshoal-suggesting-test--type keys)
      (should (equal (vialshoal-support--text) "tea\naaaa\n"))
      (vialshoal-support--check-mirror)
      (should (equal (vialshoal-suggesting-test--made) made))
      (should (zerop vialshoal--made)))))

(ert-deftest vialshoal-suggesting-cases-of-all-editors ()
  (let ((cases (plist-get (vialshoal-vectors--file "suggesting.json") :cases)))
    (should (< 20 (length cases)))
    (dolist (case cases)
      (ert-info ((plist-get case :name))
        (vialshoal-suggesting-test--with "some words of a note\n"
          (pcase-let ((`(,from ,to ,new) (plist-get case :gathered)))
            (when from
              (vialshoal-suggesting--begin (1+ from) (1+ to) new)))
          (should (eql (1- (vialshoal-suggesting--add
                            (1+ (plist-get case :from))
                            (1+ (plist-get case :to)) (plist-get case :put)
                            (not (plist-get case :back))))
                       (plist-get case :cursor)))
          (should (equal (let ((mark vialshoal-suggesting--pending))
                           (and mark
                                (list (1- (overlay-start mark))
                                      (1- (overlay-end mark))
                                      (overlay-get mark 'vialshoal-new))))
                         (plist-get case :then)))
          (should (equal (mapcar (lambda (line)
                                   (list (plist-get line :begin)
                                         (plist-get line :end)
                                         (plist-get line :new)))
                                 (vialshoal-support--sent))
                         (and (plist-get case :sends)
                              (list (plist-get case :gathered))))))))))

(ert-deftest vialshoal-suggesting-it-is-shown-until-it-is-answered ()
  (vialshoal-suggesting-test--with "tea\n"
    (goto-char 4)
    (vialshoal-suggesting-test--type "\d\dx\e")
    (let ((mark (car (overlays-in 1 5))))
      (should (equal (list (overlay-start mark) (overlay-end mark)
                           (overlay-get mark 'face)
                           (overlay-get mark 'after-string))
                     '(2 4 vialshoal-suggestion "x\ufffd"))))
    ;; Others' text moves it.
    (vialshoal-support--take :notice "changes" :version 1 :edits 0
                             :changes [[0 0 "> "]])
    (should (equal (vialshoal-suggesting-test--made) '((3 5 "x\e"))))
    (should (overlays-in 1 7))
    (vialshoal-support--take :id vialshoal--asked :answer "suggest"
                             :thread "7:1")
    (should-not (overlays-in 1 7))))

(ert-deftest vialshoal-suggesting-remarks-stay-where-they-are ()
  (vialshoal-suggesting-test--with "tea\n"
    (vialshoal-review--show '((:id "8:1" :kind "remark" :state "open"
                                   :begin 0 :end 3)))
    (goto-char 4)
    (vialshoal-suggesting-test--type "\dx\d\d")
    (let ((mark (car vialshoal-review--marks)))
      (should (equal (list (overlay-start mark) (overlay-end mark)) '(1 4))))))

(ert-deftest vialshoal-suggesting-elsewhere-is-another-suggestion ()
  (vialshoal-suggesting-test--with "one two three\n"
    (goto-char 4)
    (vialshoal-suggesting-test--type "!")
    (vialshoal-suggesting-test--do #'goto-char 9)
    (should (equal (vialshoal-suggesting-test--made) '((3 3 "!"))))
    (vialshoal-suggesting-test--type "?")
    (vialshoal-suggesting-test--do #'upcase-region 1 4)
    (should (equal (vialshoal-suggesting-test--made)
                   '((8 8 "?") (0 3 "ONE"))))
    (should (equal (vialshoal-support--text) "one two three\n"))))

(ert-deftest vialshoal-suggesting-undo-takes-the-last-one-back ()
  (vialshoal-suggesting-test--with "tea\n"
    (should (eq (key-binding (kbd "C-/")) #'vialshoal-suggesting-undo))
    (should (eq (key-binding (kbd "C-_")) #'vialshoal-suggesting-undo))
    (goto-char 4)
    (vialshoal-suggesting-test--type "!")
    (should (equal (vialshoal-suggesting-test--made) '((3 3 "!"))))
    (vialshoal-support--take :id vialshoal--asked :answer "suggest"
                             :thread "7:1")
    (vialshoal-suggesting-test--type "?")
    (vialshoal-suggesting-test--do #'vialshoal-suggesting-undo)
    (should-not (overlays-in 1 5))
    (should-not (vialshoal-support--sent))
    (vialshoal-suggesting-test--do #'vialshoal-suggesting-undo)
    (should (equal (mapcar (lambda (line)
                             (list (plist-get line :do) (plist-get line :to)))
                           (vialshoal-support--sent))
                   '(("withdraw" "7:1"))))
    (should-error (vialshoal-suggesting-undo) :type 'user-error)))

(ert-deftest vialshoal-suggesting-what-is-refused-is-kept ()
  (vialshoal-suggesting-test--with "tea\n"
    (let ((inhibit-message t) kill-ring)
      (goto-char 4)
      (vialshoal-suggesting-test--type "much")
      (vialshoal-suggesting-test--made)
      (vialshoal-support--take :id vialshoal--asked :answer "suggest"
                               :error "field" :words "That is too long.")
      (should (equal (car kill-ring) "much"))
      (should (string-prefix-p "That is too long." vialshoal--words)))))

(ert-deftest vialshoal-suggesting-an-engine-that-ends-is-told-again ()
  (vialshoal-suggesting-test--with "tea\n"
    (goto-char 4)
    (vialshoal-suggesting-test--type "!")
    (should (equal (vialshoal-suggesting-test--made) '((3 3 "!"))))
    (vialshoal--forget)
    (vialshoal-suggesting--in-time (current-buffer))
    (should-not (vialshoal-support--sent))
    (vialshoal--opened vialshoal-support--open)
    (vialshoal-suggesting--in-time (current-buffer))
    (should (equal (vialshoal-suggesting-test--made) '((3 3 "!"))))))

(ert-deftest vialshoal-suggesting-its-end-and-the-notes-make-it ()
  (dolist (end '(vialshoal-suggest-mode vialshoal-mode))
    (vialshoal-suggesting-test--with "tea\n"
      (goto-char 4)
      (vialshoal-suggesting-test--type "!")
      (funcall end -1)
      (should (equal (plist-get (car (vialshoal-support--sent)) :new) "!"))
      (should-not vialshoal-suggest-mode)
      (unless (eq end 'vialshoal-mode)
        (vialshoal-suggesting-test--type "?")
        (should (equal (plist-get (car (vialshoal-support--sent)) :changes)
                       '((3 3 "?"))))))))

(provide 'vialshoal-suggesting-test)
;;; vialshoal-suggesting-test.el ends here
