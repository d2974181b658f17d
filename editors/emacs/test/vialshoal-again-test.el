;;; vialshoal-again-test.el --- An engine that ends  -*- lexical-binding: t; -*-

;;; Commentary:

;; With no engine: what is sent to the next one, and what each of its answers
;; does; and what becomes of edits that the note doesn't take.

;;; Code:

(require 'vialshoal-support)
(require 'vialshoal-again)
(require 'vialshoal-review)
(require 'vialshoal-suggesting)

(defmacro vialshoal-again-test-with (text &rest body)
  "Run BODY in a note of TEXT, whose engine can end."
  (declare (indent 1) (debug t))
  `(vialshoal-support-with-note
       (plist-put (copy-sequence vialshoal-support--open) :text ,text)
     (cl-letf (((symbol-function 'vialshoal--make-process) #'ignore)
               (inhibit-message t))
       (setq vialshoal--editor "e1")
       ,@body)))

(defun vialshoal-again-test--types (text &optional place)
  "Type TEXT at PLACE, or point, as a command."
  (vialshoal--pre-command)
  (when place
    (goto-char (1+ place)))
  (insert text)
  (vialshoal--post-command))

(defun vialshoal-again-test--starts ()
  "Have the engine start, and return the request `open' that it is sent."
  (vialshoal-support--sent)
  (vialshoal-again--start (current-buffer))
  (let ((sent (vialshoal-support--sent)))
    (should (= 1 (length sent)))
    (should (equal (plist-get (car sent) :do) "open"))
    (car sent)))

(defun vialshoal-again-test--answers (&rest line)
  "Have the engine answer `open' with LINE."
  (apply #'vialshoal-support--take :answer "open" :id 0 line))

(defun vialshoal-again-test--again (version edits text &rest made)
  "Return what is sent of a step at VERSION and EDITS, TEXT, and edits MADE."
  (list :version version :edits edits
        :hash (secure-hash 'sha256 (encode-coding-string text 'utf-8-unix))
        :made (mapcar (lambda (changes) (list :changes changes)) made)))

(ert-deftest vialshoal-again-test-typing-goes-on ()
  (vialshoal-again-test-with "tea\n"
    (vialshoal-again-test--types "a" 0)
    (vialshoal-support--sent)
    (vialshoal--ended "It was killed.")
    (should-not buffer-read-only)
    (should (string-match-p "engine ended" (vialshoal--lighter)))
    (should (string-match-p "Nothing is lost.*It was killed" vialshoal--words))
    (vialshoal-again-test--types "b漢")
    (should-not (vialshoal-support--sent))
    (let ((open (vialshoal-again-test--starts)))
      (should (equal (plist-get open :editor) "e1"))
      (should (equal (plist-get open :again)
                     (vialshoal-again-test--again
                      0 0 "ab漢tea\n" '((0 0 "a")) '((1 1 "b漢"))))))
    (vialshoal-again-test--types "c")
    (should-not (vialshoal-support--sent))
    (vialshoal-again-test--answers :version 7 :edits 2 :has 1)
    (should (equal (vialshoal-support--sent)
                   '((:do "edit" :version 7 :edits 3 :changes ((3 3 "c"))))))
    (should (equal (vialshoal-support--text) "ab漢ctea\n"))
    ;; Others' changes follow, once the engine has all.
    (vialshoal-support--take :notice "changes" :version 8 :edits 2
                             :changes [[0 0 "no "]])
    (vialshoal-support--take :notice "changes" :version 9 :edits 3
                             :changes [[0 0 "my "]])
    (vialshoal-support--take :answer "edit" :edits 3)
    (should (equal (vialshoal-support--text) "my ab漢ctea\n"))
    (should-not (buffer-modified-p))
    (should-not vialshoal--edits)
    (vialshoal-support--check-mirror)))

(ert-deftest vialshoal-again-test-the-next-engine-can-end-too ()
  (vialshoal-again-test-with "tea\n"
    (vialshoal-again-test--types "a" 0)
    (vialshoal--ended nil)
    (vialshoal-again-test--starts)
    (vialshoal-again-test--types "b")
    ;; Before it answers.
    (vialshoal--ended nil)
    (should (equal (plist-get (vialshoal-again-test--starts) :again)
                   (vialshoal-again-test--again
                    0 0 "abtea\n" '((0 0 "a")) '((1 1 "b")))))
    (vialshoal-again-test--answers :version 3 :edits 2 :has 2)
    (vialshoal-again-test--types "c")
    ;; Before it answers the next edit.
    (vialshoal--ended nil)
    (should (equal (plist-get (vialshoal-again-test--starts) :again)
                   (vialshoal-again-test--again 3 2 "abctea\n" '((2 2 "c")))))))

(ert-deftest vialshoal-again-test-what-is-in-step-is-not-sent-again ()
  (vialshoal-again-test-with "tea\n"
    (cl-flet ((again () (vialshoal--ended nil)
                     (prog1 (plist-get (vialshoal-again-test--starts) :again)
                       (vialshoal-again-test--answers
                        :version vialshoal--version :edits vialshoal--made))))
      ;; By a notice that counts all edits.
      (vialshoal-again-test--types "a" 0)
      (vialshoal-support--take :notice "changes" :version 4 :edits 1
                               :changes [[4 4 "!"]])
      (vialshoal-support--take :answer "edit" :edits 1)
      (should (equal (again) (vialshoal-again-test--again 4 1 "atea!\n")))
      ;; By an answer that says so; one of another version doesn't.
      (vialshoal-again-test--types "b" 0)
      (vialshoal-support--take :answer "edit" :edits 2 :version 5)
      (should (equal vialshoal--step '(4 . 1)))
      (vialshoal-again-test--types "c" 0)
      (vialshoal-support--take :answer "edit" :edits 3 :version 4)
      (should (equal vialshoal--step '(4 . 3)))
      (should (equal (again) (vialshoal-again-test--again 4 3 "cbatea!\n")))
      ;; One that isn't the answer to the last edit doesn't.
      (vialshoal-again-test--types "d" 0)
      (vialshoal-again-test--types "e" 0)
      (vialshoal-support--take :answer "edit" :edits 4 :version 4)
      (should (equal (again) (vialshoal-again-test--again
                              4 3 "edcbatea!\n" '((0 0 "d")) '((0 0 "e"))))))))

(ert-deftest vialshoal-again-test-what-waits-to-be-sent-is-one-edit ()
  (vialshoal-again-test-with "tea\n"
    (dotimes (_ 12)
      (vialshoal-again-test--types "a" 0))
    (should (= vialshoal--made 10))
    (vialshoal--ended nil)
    (let ((made (plist-get (plist-get (vialshoal-again-test--starts) :again)
                           :made)))
      (should (= (length made) 11))
      (should (equal (car (last made)) '(:changes ((0 0 "a") (0 0 "a"))))))))

(ert-deftest vialshoal-again-test-how-edits-join-is-kept ()
  (vialshoal-again-test-with "tea\n"
    (vialshoal--ended nil)
    (vialshoal-again-test--starts)
    (setq vialshoal--joins 'begins)
    (vialshoal-again-test--types "a" 0)
    (vialshoal-again-test--types "b")
    (vialshoal-again-test--answers :version 1 :edits 0)
    (should (equal (mapcar (lambda (line) (list (plist-member line :join)
                                                (plist-get line :join)))
                           (vialshoal-support--sent))
                   '(((:join nil) nil) ((:join t) t))))))

(ert-deftest vialshoal-again-test-an-opening-says-how-edits-join ()
  (vialshoal-again-test-with "tea\n"
    (vialshoal--ended nil)
    (setq vialshoal--joins 'begins)
    (vialshoal-again-test--types "a" 0)
    (vialshoal-again-test--types "b")
    (should (equal (plist-get (plist-get (vialshoal-again-test--starts) :again)
                              :made)
                   '((:changes ((0 0 "a")) :join nil)
                     (:changes ((1 1 "b")) :join t))))))

(defun vialshoal-again-test--said ()
  "Return the requests of the margin that were sent."
  (mapcar (lambda (line)
            (mapcar (lambda (key) (plist-get line key))
                    '(:do :version :begin :end :once)))
          (cl-remove-if-not (lambda (line) (plist-member line :once))
                            (vialshoal-support--sent))))

(ert-deftest vialshoal-again-test-what-was-said-is-asked-for-again ()
  "By the same numbers, with the places of then."
  (vialshoal-again-test-with "tea and jam\n"
    (let (kill-ring)
      (vialshoal-remark 5 8 "Why?")
      (vialshoal-suggest 9 12 "honey")
      (vialshoal-reply '(:id "7:1") "Because.")
      (should (equal (vialshoal-again-test--said)
                     '(("remark" 0 4 7 1) ("suggest" 0 8 11 2)
                       ("reply" nil nil nil 3))))
      (vialshoal--ended nil)
      (should-not (string-match-p "repeat it" vialshoal--words))
      (vialshoal-again-test--types "> " 0)
      (vialshoal-again-test--starts)
      (vialshoal-again-test--answers :version 1 :edits 1)
      (should (equal (vialshoal-again-test--said)
                     '(("remark" 1 6 9 1) ("suggest" 1 10 13 2)
                       ("reply" nil nil nil 3))))
      (vialshoal-support--take :answer "remark" :id (- vialshoal--asked 2)
                               :thread "7:2")
      ;; The next engine shows another text: the words are kept.
      (vialshoal--ended nil)
      (vialshoal-again-test--starts)
      (vialshoal-again-test--answers :text "> tea and jam\n!" :version 3
                                     :edits 1)
      (should-not (vialshoal-again-test--said))
      (should (equal kill-ring '("honey\n\nBecause."))))))

(ert-deftest vialshoal-again-test-what-is-suggested-by-typing-keeps-its-number ()
  (vialshoal-again-test-with "tea and jam\n"
    (let ((vialshoal-suggesting--pause 1000))
      (vialshoal-suggesting--begin 5 8 "or")
      (vialshoal-suggesting--finish)
      (should (equal (vialshoal-again-test--said) '(("suggest" 0 4 7 1))))
      (vialshoal--ended nil)
      (vialshoal-again-test--starts)
      (vialshoal-again-test--answers :version 1 :edits 0)
      (vialshoal-suggesting--finish)
      (should (equal (vialshoal-again-test--said) '(("suggest" 1 4 7 1))))
      (vialshoal-suggesting--begin 9 12 "honey")
      (vialshoal-suggesting--finish)
      (should (equal (vialshoal-again-test--said) '(("suggest" 1 8 11 2)))))))

(ert-deftest vialshoal-again-test-what-is-not-carried-over-is-put-back ()
  (dolist (case '((nil "one two") (1 "two") (2 nil)))
    (pcase-let ((`(,has ,words) case))
      (vialshoal-again-test-with "tea\n"
        (vialshoal-again-test--types "one " 0)
        (vialshoal--ended nil)
        (vialshoal-again-test--starts)
        (vialshoal-again-test--types "two")
        (apply #'vialshoal-again-test--answers :text "theirs\n" :version 5
               :edits 0 (and has (list :has has)))
        (should (equal (vialshoal-support--text) "theirs\n"))
        (should-not (vialshoal-support--sent))
        (should (equal vialshoal-again--words words))
        (if (not words)
            (should-error (vialshoal-put-back) :type 'user-error)
          (should (string-match-p (regexp-quote words) vialshoal--words))
          (should (string-match-p "vialshoal-put-back" vialshoal--words))
          (vialshoal-put-back)
          (should (equal (mapcar (lambda (line)
                                   (nth 2 (car (plist-get line :changes))))
                                 (vialshoal-support--sent))
                         (list words)))
          (should-not vialshoal-again--words))
        (vialshoal-support--check-mirror)
        (let ((beside (get-buffer "*picnic as it was here*")))
          (when beside (kill-buffer beside)))))))

(ert-deftest vialshoal-again-test-an-engine-that-cannot-open-is-tried-again ()
  (vialshoal-again-test-with "tea\n"
    (vialshoal-again-test--types "a" 0)
    (dolist (ends (list (lambda () (vialshoal--ended "No file."))
                        (lambda () (vialshoal-again-test--answers
                                    :error "failed" :words "No."))
                        (lambda () (vialshoal-again-test--answers
                                    :error "absent" :words "No note."))))
      (unless vialshoal--is-away
        (vialshoal--ended nil))
      (vialshoal-again-test--starts)
      (vialshoal-again-test--types "b")
      (funcall ends)
      (should vialshoal--is-away)
      (should vialshoal-again--timer)
      (vialshoal-again-test--types "c")
      (should-not buffer-read-only))
    (should (= 7 (length (plist-get (plist-get (vialshoal-again-test--starts)
                                               :again)
                                    :made))))
    (vialshoal-again-test--answers :version 1 :edits 7)
    (should (equal (vialshoal-support--text) "abcbcbctea\n"))
    (should vialshoal--is-open)))

(ert-deftest vialshoal-again-test-the-pause-grows ()
  (vialshoal-again-test-with "tea\n"
    (let (pauses)
      (cl-letf (((symbol-function 'run-at-time)
                 (lambda (pause &rest _) (push pause pauses) nil)))
        (dotimes (_ 8)
          (vialshoal--ended nil)
          (vialshoal-again-test--starts)
          (vialshoal-again-test--answers :version 0 :edits 0))
        (should (equal (nreverse pauses) '(0 0.2 0.4 0.8 1.6 3.2 5.0 5.0)))
        ;; One that ran for a while is started at once.
        (setq pauses nil
              vialshoal-support--now (+ 3 vialshoal-support--now))
        (vialshoal--ended nil)
        (should (equal pauses '(0)))))))

(ert-deftest vialshoal-again-test-undo-says-that-the-engine-is-away ()
  (vialshoal-again-test-with "tea\n"
    (vialshoal-again-test--types "a" 0)
    (vialshoal--ended nil)
    (vialshoal-support--sent)
    (dolist (command (list #'vialshoal-undo #'vialshoal-redo #'vialshoal-history))
      (should (string-match-p "engine is being started again"
                              (cadr (should-error (funcall command)
                                                  :type 'user-error)))))
    (should (equal (vialshoal-support--text) "atea\n"))
    (should-not (vialshoal-support--sent))))

(ert-deftest vialshoal-again-test-what-was-asked-is-dropped-and-told ()
  (vialshoal-again-test-with "tea\n"
    (vialshoal-again-test--types "a" 0)
    (vialshoal-undo)
    (vialshoal--ended nil)
    (should (string-match-p "Look whether your last command was done"
                            vialshoal--words))
    (should-not vialshoal--waiting)))

(ert-deftest vialshoal-again-test-a-command-that-holds-places-goes-on ()
  (vialshoal-again-test-with "foo foo\n"
    (vialshoal--begin-hold (current-buffer))
    (vialshoal-again-test--types "bar" 0)
    (vialshoal--ended nil)
    (vialshoal-again-test--types "baz")
    (vialshoal-again-test--starts)
    (vialshoal--cut "{\"answer\":\"open\",\"id\":0,\"version\":3,\"edits\":2,\"has\":1}\n{\"notice\":\"changes\",\"version\":4,\"edits\":2,\"changes\":[[0,0,\"x\"]]}\n")
    (vialshoal--take-lines)
    (should vialshoal--is-open)
    (should (equal (vialshoal-support--text) "barbazfoo foo\n"))
    (vialshoal-again-test--types "!")
    (should (equal (mapcar (lambda (line) (plist-get line :changes))
                           (vialshoal-support--sent))
                   '(((6 6 "!")))))
    (vialshoal--let-go (current-buffer))
    (should (equal (vialshoal-support--text) "barbaz!foo foo\n"))))

(ert-deftest vialshoal-again-test-a-text-that-waits-for-a-command-keeps-all ()
  (vialshoal-again-test-with "foo foo\n"
    (vialshoal--begin-hold (current-buffer))
    (vialshoal--ended nil)
    (vialshoal-again-test--starts)
    (vialshoal--cut "{\"answer\":\"open\",\"id\":0,\"version\":3,\"edits\":0,\"text\":\"new\\n\"}\n")
    (vialshoal--take-lines)
    (vialshoal-again-test--types "bar" 0)
    (should (equal (vialshoal-support--text) "barfoo foo\n"))
    (vialshoal--let-go (current-buffer))
    (should (equal (vialshoal-support--text) "new\n"))
    (should (equal vialshoal-again--words "bar"))
    (kill-buffer "*picnic as it was here*")))

(ert-deftest vialshoal-again-test-a-broken-off-change-is-not-carried-over ()
  (vialshoal-again-test-with "tea\n"
    (setq vialshoal--is-lost t)
    (vialshoal-again-test--types "a" 0)
    (vialshoal--ended nil)
    (should-not (plist-get (vialshoal-again-test--starts) :again))
    (vialshoal-again-test--answers :text "new\n" :version 3 :edits 0)
    (should (equal (vialshoal-support--text) "new\n"))
    (should (equal (vialshoal-support--text "*picnic as it was here*") "atea\n"))
    (kill-buffer "*picnic as it was here*")))

(ert-deftest vialshoal-again-test-who-closes-without-an-engine-is-asked ()
  (vialshoal-again-test-with "tea\n"
    (vialshoal-again-test--types "a" 0)
    (vialshoal--ended nil)
    (let ((noninteractive nil) (answer nil) (asked nil))
      (cl-letf (((symbol-function 'vialshoal-again--wait) #'ignore)
                ((symbol-function 'yes-or-no-p)
                 (lambda (words) (setq asked words) answer)))
        (should-not (vialshoal-again--may-close-all))
        (should (string-match-p "No engine has what you typed last" asked))
        (setq answer t)
        (should (vialshoal-again--may-close-all))))))

(ert-deftest vialshoal-again-test-who-ends-without-an-engine-keeps-the-text ()
  (vialshoal-again-test-with "tea\n"
    (vialshoal-again-test--types "a" 0)
    (vialshoal--ended nil)
    (cl-letf (((symbol-function 'vialshoal-again--wait) #'ignore))
      (vialshoal-mode -1))
    (should (equal (vialshoal-support--text "*picnic as it was here*") "atea\n"))
    (kill-buffer "*picnic as it was here*")))

(ert-deftest vialshoal-again-test-an-emacs-that-is-ended-leaves-the-words ()
  "In a file that only the user reads; the next opening says where."
  (let* ((data (make-temp-file "vialshoal" t))
         (process-environment (cons (concat "VIALSHOAL_DATA=" data)
                                    process-environment)))
    (unwind-protect
        (progn
          (vialshoal-again-test-with "tea\n"
            (vialshoal-again-test--types "sent " 0)
            (vialshoal-support--take :answer "edit" :edits 1 :version 0)
            (vialshoal--ended nil)
            (vialshoal-again-test--types "漢🍰" 5)
            (cl-letf (((symbol-function 'vialshoal-again--wait) #'ignore))
              (vialshoal--close-all))
            (kill-buffer "*picnic as it was here*"))
          (let* ((left (expand-file-name "left" data))
                 (files (directory-files left t "\\`picnic-.*\\.txt\\'")))
            (should (= 1 (length files)))
            (should (= #o600 (file-modes (car files))))
            (should (equal "漢🍰" (with-temp-buffer
                                  (insert-file-contents (car files))
                                  (buffer-string))))
            (vialshoal-again-test-with "tea\n"
              (vialshoal--send-open nil)
              (vialshoal-again-test--answers :text "tea\n" :version 0 :edits 0
                                             :units "utf-32")
              (should (string-search (car files) vialshoal--words)))
            (delete-file (car files))
            (vialshoal-again-test-with "tea\n"
              (setq vialshoal--words nil)
              (vialshoal--send-open nil)
              (vialshoal-again-test--answers :text "tea\n" :version 0 :edits 0
                                             :units "utf-32")
              (should-not (and vialshoal--words
                               (string-search "left" vialshoal--words))))))
      (delete-directory data t))))

;;;; Edits that the note doesn't take

(defun vialshoal-again-test--refuses (error &optional changes)
  "Have the last edit be answered with ERROR, behind CHANGES that take it out."
  (when changes
    (vialshoal-support--take :notice "changes" :version (1+ vialshoal--version)
                             :edits vialshoal--made :changes changes))
  (vialshoal-support--take :answer "edit" :edits vialshoal--made :error error
                           :words "Not so."))

(ert-deftest vialshoal-again-test-a-refused-edit-keeps-its-words ()
  (dolist (error '("unkept" "number" "refused" "stale" "version" "outside"
                   "failed" "json"))
    (vialshoal-again-test-with "one two\n"
      (vialshoal-again-test--types "1" 4)
      (vialshoal-again-test--refuses error [[4 5 ""]])
      (should (string-match-p "\\`Not so\\..*\"1\".*vialshoal-put-back"
                              vialshoal--words))
      ;; What is typed at the same place follows, what is elsewhere in a line.
      (vialshoal-again-test--types "2" 4)
      (vialshoal-again-test--refuses error [[4 5 ""]])
      (vialshoal-again-test--types "3" 0)
      (vialshoal-again-test--refuses error [[0 1 ""]])
      (should (equal vialshoal-again--words "12\n3"))
      ;; Others go on.
      (vialshoal-support--take :notice "changes" :version 9 :edits 3
                               :changes [[0 0 "our "]])
      (vialshoal-put-back)
      (should (equal (vialshoal-support--text) "our one 12\n3two\n"))
      (should (equal (plist-get (car (last (vialshoal-support--sent))) :changes)
                     '((8 8 "12\n3"))))
      (vialshoal-again-test--refuses error [[8 12 ""]])
      (should (equal vialshoal-again--words "12\n3")))))

(ert-deftest vialshoal-again-test-a-refused-deletion-has-no-words ()
  (vialshoal-again-test-with "one two\n"
    (vialshoal--pre-command)
    (delete-region 1 4)
    (vialshoal--post-command)
    (vialshoal-again-test--refuses "unkept" [[0 0 "one"]])
    (should (equal vialshoal--words "Not so."))
    (should-not vialshoal-again--words)))

(ert-deftest vialshoal-again-test-words-are-those-that-later-changes-leave ()
  (pcase-dolist (`(,changes ,words)
                 '((([0 0 "abc"] [3 3 "d"] [1 2 ""]) "acd")
                   (([0 0 "ab"] [5 5 "xy"] [0 1 ""]) "b\nxy")
                   (([5 5 "xy"] [0 0 "ab"] [2 2 "c"]) "abc\nxy")
                   (([0 9 "new"]) "new")
                   (([0 0 "ab"] [0 2 ""]) "")
                   (([2 2 "ab"] [0 8 "all"]) "all")
                   (([0 0 "ab"] [4 4 "cd"] [1 5 "-"]) "a-d")))
    (should (equal (vialshoal-again--put-by changes) words))))

(provide 'vialshoal-again-test)
;;; vialshoal-again-test.el ends here
