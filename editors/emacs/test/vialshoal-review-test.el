;;; vialshoal-review-test.el --- Reviews with no engine  -*- lexical-binding: t; -*-

;;; Commentary:

;; What is sent for remarks and suggestions, and what is shown of them.

;;; Code:

(require 'vialshoal-support)
(require 'vialshoal-remarks)
(require 'vialshoal-changed)

(defconst vialshoal-review-test--hostile
  "50% %s \\[kill-emacs] \\{global-map}\e]0;x\a\u202eevil\n`(shell)'"
  "What somebody may write to be obeyed.")

(defun vialshoal-review-test--thread (id begin end &rest more)
  "Return a thread of this ID from BEGIN to END, with MORE of it."
  (append more (list :id id :kind "remark" :site 8 :name "Bo" :time 0
                     :body "Why?" :state "open" :begin begin :end end
                     :text "tea" :replies [])))

(defun vialshoal-review-test--answer (&rest line)
  "Have LINE answer what was asked last."
  (apply #'vialshoal-support--take :id vialshoal--asked
         :edits vialshoal--made line))

(defun vialshoal-review-test--show (&rest threads)
  "Have the engine say that there are THREADS."
  (vialshoal-support--take :notice "remarks" :all (length threads)
                           :open (length threads))
  (vialshoal-review--in-time (current-buffer))
  (should (equal (mapcar (lambda (line) (plist-get line :do))
                         (vialshoal-support--sent))
                 '("remarks")))
  (vialshoal-review-test--answer :answer "remarks" :threads (vconcat threads)
                                 :of (length threads)))

(defmacro vialshoal-review-test--told (&rest body)
  "Return what is told in the echo area as BODY is run."
  (declare (indent 0) (debug t))
  `(let (told)
     (cl-letf (((symbol-function 'vialshoal-review--tell)
                (lambda (words) (setq told words))))
       ,@body)
     told))

(defun vialshoal-review-test--sent ()
  "Return the only line that was sent, without its numbers."
  (let ((lines (vialshoal-support--sent)))
    (should (= (length lines) 1))
    (cl-loop for (key value) on (car lines) by #'cddr
             unless (memq key '(:id :once)) nconc (list key value))))

(defun vialshoal-review-test--marks ()
  "Return where threads are shown, and by what face, in their order."
  (sort (mapcar (lambda (mark)
                  (list (overlay-start mark) (overlay-end mark)
                        (overlay-get mark 'face)))
                vialshoal-review--marks)
        (lambda (one other) (< (car one) (car other)))))

(ert-deftest vialshoal-review-threads-are-shown ()
  (vialshoal-support-with-note vialshoal-support--open
    (vialshoal-review-test--show
     (vialshoal-review-test--thread "8:1" 0 3 :replies
                                    [(:id "7:2" :site 7 :own t :body "So.")])
     (vialshoal-review-test--thread "8:3" 1 2 :kind "suggestion" :new "he")
     (vialshoal-review-test--thread "8:4" 2 2)
     (vialshoal-review-test--thread "8:5" 3 4 :state "resolved")
     '(:id "8:6" :kind "remark" :site 8 :body "lost" :state "open"
           :elsewhere t :replies []))
    (should (equal (vialshoal-review-test--marks)
                   '((1 4 vialshoal-remark) (2 3 vialshoal-suggestion)
                     (3 3 vialshoal-remark) (4 5 nil))))
    (let ((help (funcall (overlay-get (car (overlays-in 1 2)) 'help-echo))))
      (should (string-match-p "On \"tea\"\nBo.*: Why\\?\n  you: So\\." help)))
    (should (string-match-p ", 5 remarks" (vialshoal--log-words)))
    ;; They move with the text.
    (vialshoal-support--take :notice "changes" :version 1 :edits 0
                             :changes [[0 0 "> "]])
    (should (equal (caar (vialshoal-review-test--marks)) 3))
    (vialshoal-mode -1)
    (should-not vialshoal-review--marks)
    (should-not (overlays-in (point-min) (point-max)))))

(ert-deftest vialshoal-review-it-is-asked-for-what-is-current ()
  (vialshoal-support-with-note vialshoal-support--open
    (setq vialshoal-support--now 100.0)
    (vialshoal-support--take :notice "remarks" :all 1 :open 1)
    (insert "x")
    (vialshoal--post-command)
    (vialshoal-support--sent)
    ;; While an edit isn't answered, nothing is asked.
    (vialshoal-review--in-time (current-buffer))
    (should-not (vialshoal-support--sent))
    (vialshoal-support--take :answer "edit" :edits 1)
    (vialshoal-review--in-time (current-buffer))
    (should (equal (vialshoal-review-test--sent) '(:do "remarks" :version 0)))
    ;; What was typed since isn't in the places of the answer.
    (insert "y")
    (vialshoal-support--take :id 1 :answer "remarks" :edits 1 :of 1 :threads
                             (vector (vialshoal-review-test--thread "8:1" 0 3)))
    (should-not vialshoal-review--marks)
    (vialshoal-support--sent)
    (vialshoal-support--take :answer "edit" :edits 2)
    (vialshoal-review--in-time (current-buffer))
    (should (equal (vialshoal-review-test--sent) '(:do "remarks" :version 0)))
    (vialshoal-review-test--answer
     :answer "remarks" :of 1 :threads
     (vector (vialshoal-review-test--thread "8:1" 0 3)))
    (should vialshoal-review--marks)
    ;; Nothing more is to be asked.
    (vialshoal-review--in-time (current-buffer))
    (should-not (vialshoal-support--sent))))

(ert-deftest vialshoal-review-it-is-asked-some-times-a-second ()
  (vialshoal-support-with-note vialshoal-support--open
    (let (delays)
      (cl-letf (((symbol-function 'run-at-time)
                 (lambda (delay &rest _) (push delay delays) 'timer))
                ((symbol-function 'cancel-timer) #'ignore))
        (setq vialshoal-support--now 100.0)
        (dotimes (_ 3)
          (vialshoal-support--take :notice "remarks" :all 0 :open 0))
        (should (equal delays '(0)))
        (vialshoal-review--in-time (current-buffer))
        (vialshoal-support--take :notice "remarks" :all 0 :open 0)
        (should (< 0.29 (car delays) 0.31))))))

(ert-deftest vialshoal-review-of-many-those-that-are-open-are-shown ()
  (vialshoal-support-with-note vialshoal-support--open
    (vialshoal-support--take :notice "remarks" :all 2 :open 1)
    (vialshoal-review--in-time (current-buffer))
    (vialshoal-support--sent)
    (vialshoal-review-test--answer
     :answer "remarks" :of 2
     :threads (vector (vialshoal-review-test--thread "8:1" 0 1)))
    (should (equal (vialshoal-review-test--sent)
                   '(:do "remarks" :version 0 :open t)))
    (vialshoal-review-test--answer
     :answer "remarks" :of 2
     :threads (vector (vialshoal-review-test--thread "8:2" 1 2)))
    (should (equal (vialshoal-review-test--marks) '((2 3 vialshoal-remark))))))

(ert-deftest vialshoal-review-a-remark-is-made ()
  (vialshoal-support-with-note vialshoal-support--open
    (goto-char 2)
    (cl-letf (((symbol-function 'read-string)
               (lambda (&rest _)
                 ;; Others write while one thinks.
                 (vialshoal-support--take :notice "changes" :version 1 :edits 0
                                          :changes [[0 0 "> "]])
                 "Why?")))
      (call-interactively #'vialshoal-remark)
      (should (equal (vialshoal-review-test--sent)
                     '(:do "remark" :body "Why?" :version 1 :begin 3 :end 3)))
      (push-mark 6 t t)
      (let ((transient-mark-mode t))
        (call-interactively #'vialshoal-remark))
      (should (equal (vialshoal-review-test--sent)
                     '(:do "remark" :body "Why?" :version 1 :begin 5 :end 7))))
    (vialshoal-remark 5 7 (string ?a #x3fff80 #xd800))
    (should (equal (plist-get (vialshoal-review-test--sent) :body)
                   "a\ufffd\ufffd"))
    (should-error (vialshoal-remark 1 2 " \n") :type 'user-error)
    (should-not (vialshoal-support--sent))))

(ert-deftest vialshoal-review-much-is-written-in-a-buffer ()
  (save-window-excursion
    (vialshoal-support-with-note vialshoal-support--open
      (let ((note (current-buffer)) (current-prefix-arg '(4)))
        (vialshoal-remark 1 4)
        (should (derived-mode-p 'vialshoal-review-write-mode))
        (insert "one\ntwo")
        (let ((written (current-buffer)))
          (call-interactively #'vialshoal-review-done)
          (should-not (buffer-live-p written)))
        (with-current-buffer note
          (should (equal (vialshoal-review-test--sent)
                         '(:do "remark" :body "one\ntwo"
                               :version 0 :begin 0 :end 3)))
          (vialshoal-remark 1 4))
        (insert "no")
        (call-interactively #'vialshoal-review-drop)
        (with-current-buffer note
          (should-not (vialshoal-support--sent)))))))

(ert-deftest vialshoal-review-what-is-done-to-threads ()
  (vialshoal-support-with-note vialshoal-support--open
    (vialshoal-review-test--show
     (vialshoal-review-test--thread "8:1" 0 1 :replies
                                    [(:id "7:2" :site 7 :own t :body "So.")])
     (vialshoal-review-test--thread "7:3" 2 3 :kind "suggestion" :new "he"
                                    :own t))
    (goto-char 1)
    (cl-letf (((symbol-function 'read-string)
               (lambda (_ &optional initial &rest _) (concat initial "!"))))
      (call-interactively #'vialshoal-reply)
      (should (equal (vialshoal-review-test--sent)
                     '(:do "reply" :body "!" :to "8:1")))
      (call-interactively #'vialshoal-revise)
      (should (equal (vialshoal-review-test--sent)
                     '(:do "revise" :body "So.!" :to "7:2"))))
    (dolist (case '((vialshoal-resolve 1 "resolve" "8:1")
                    (vialshoal-resolve 4 "resolve" "7:3")
                    (vialshoal-reject 3 "reject" "7:3")
                    (vialshoal-accept 3 "accept" "7:3")
                    (vialshoal-withdraw 1 "withdraw" "7:2")
                    (vialshoal-withdraw 3 "withdraw" "7:3")))
      (pcase-let ((`(,command ,place ,what ,id) case))
        (goto-char place)
        (call-interactively command)
        (should (equal (vialshoal-review-test--sent)
                       (list :do what :to id)))))
    (goto-char 1)
    ;; No suggestion, none that is resolved.
    (should-error (call-interactively #'vialshoal-accept) :type 'user-error)
    (should-error (call-interactively #'vialshoal-reopen) :type 'user-error)
    (vialshoal-review-test--show
     (vialshoal-review-test--thread "8:1" 0 1 :state "resolved"))
    (call-interactively #'vialshoal-reopen)
    (should (equal (vialshoal-review-test--sent) '(:do "reopen" :to "8:1")))))

(ert-deftest vialshoal-review-of-several-one-is-chosen ()
  (vialshoal-support-with-note vialshoal-support--open
    (vialshoal-review-test--show
     (vialshoal-review-test--thread "8:1" 0 3)
     (vialshoal-review-test--thread "8:2" 0 3 :body "What?"))
    (cl-letf (((symbol-function 'completing-read)
               (lambda (_ choices &rest _)
                 (should (equal (mapcar #'car choices)
                                '("1. Bo: Why?" "2. Bo: What?")))
                 (car (cadr choices)))))
      (goto-char 2)
      (call-interactively #'vialshoal-resolve))
    (should (equal (vialshoal-review-test--sent)
                   '(:do "resolve" :to "8:2")))))

(ert-deftest vialshoal-review-a-text-is-suggested ()
  (vialshoal-support-with-note vialshoal-support--open
    (vialshoal-suggest 1 4 "jam")
    (should (equal (vialshoal-review-test--sent)
                   '(:do "suggest" :new "jam" :version 0 :begin 0 :end 3)))
    (vialshoal-suggest 1 4 "")
    (should (equal (vialshoal-review-test--sent)
                   '(:do "suggest" :new "" :version 0 :begin 0 :end 3)))
    (should-error (vialshoal-suggest 1 4 "tea") :type 'user-error)
    (save-window-excursion
      (let ((note (current-buffer)))
        (vialshoal-suggest 3 5)
        (should (equal (buffer-string) "a\n"))
        (insert "b")
        (call-interactively #'vialshoal-review-done)
        (with-current-buffer note
          (should (equal (vialshoal-review-test--sent)
                         '(:do "suggest" :new "a\nb" :version 0
                               :begin 2 :end 4))))))))

(ert-deftest vialshoal-review-what-changed-is-accepted-by-a-command ()
  (vialshoal-support-with-note vialshoal-support--open
    (vialshoal-review-test--show
     (vialshoal-review-test--thread "8:1" 0 3 :kind "suggestion" :new "jam"))
    (goto-char 2)
    (let ((inhibit-message t) (note (current-buffer)))
      (should-error (call-interactively #'vialshoal-accept-anyway)
                    :type 'user-error)
      (call-interactively #'vialshoal-accept)
      (vialshoal-support--sent)
      (vialshoal-review-test--answer
       :answer "accept" :error "changed" :words "It has changed."
       :was "tea" :now "te\e[1ma" :new "jam" :becomes "jam1")
      (should (string-prefix-p "It has changed." vialshoal--words))
      ;; The user types on in the note, and nothing is asked.
      (should (eq (current-buffer) note))
      (should-not (equal (buffer-name (window-buffer)) "*accept 8:1*"))
      (should-not (active-minibuffer-window))
      (should-not (vialshoal-support--sent))
      (with-current-buffer "*accept 8:1*"
        (should (get-buffer-window))
        (should (string-match-p
                 "was:\ntea\n\n.*now:\nte\ufffd\\[1ma\n\n.*be:\njam1"
                 (buffer-string)))
        (should (eq (lookup-key (current-local-map) "a")
                    #'vialshoal-accept-anyway))
        (call-interactively #'vialshoal-accept-anyway))
      (should-not (get-buffer "*accept 8:1*"))
      (should (equal (vialshoal-review-test--sent)
                     '(:do "accept" :to "8:1" :becomes "jam1"))))))

(ert-deftest vialshoal-review-one-goes-from-remark-to-remark ()
  (vialshoal-support-with-note vialshoal-support--open
    (vialshoal-review-test--show
     (vialshoal-review-test--thread "8:1" 1 2)
     (vialshoal-review-test--thread "8:2" 2 3 :state "resolved")
     (vialshoal-review-test--thread "8:3" 3 4))
    (goto-char 1)
    (should (string-match-p "Bo.*: Why\\?" (vialshoal-review-test--told
                                             (vialshoal-next-remark))))
    (should (= (point) 2))
    (let ((inhibit-message t))
      (vialshoal-next-remark)
      (should (= (point) 4))
      (vialshoal-next-remark)
      (should (= (point) 2))
      (vialshoal-previous-remark)
      (should (= (point) 4))
      (vialshoal-previous-remark 2)
      (should (= (point) 4)))
    ;; All are still there.
    (vialshoal-review-test--show (vialshoal-review-test--thread "8:1" 3 4)
                                 (vialshoal-review-test--thread "8:2" 1 2))
    (goto-char 1)
    (vialshoal-review-test--told (vialshoal-next-remark))
    (should (= (point) 2))
    (should (= (length vialshoal-review--marks) 2))))

(ert-deftest vialshoal-review-nothing-that-others-write-is-obeyed ()
  (vialshoal-support-with-note vialshoal-support--open
    (vialshoal-review-test--show
     (vialshoal-review-test--thread
      "8:1" 0 3 :kind "suggestion" :name vialshoal-review-test--hostile
      :text vialshoal-review-test--hostile :new vialshoal-review-test--hostile
      :body vialshoal-review-test--hostile))
    (let* ((mark (car vialshoal-review--marks))
           (shown "50% %s \\[kill-emacs] \\{global-map}\ufffd]0;x\ufffd\ufffdevil")
           (new (overlay-get mark 'after-string)))
      (should (string-prefix-p shown new))
      ;; As Emacs shows it.
      (let ((help (funcall (overlay-get mark 'help-echo))))
        (should (string-search shown (substitute-command-keys help)))
        (should-not (string-match-p "\e\\|\u202e" help)))
      (should (string-search shown (vialshoal-review-test--told
                                     (vialshoal-review--visit mark))))
      (let ((label (vialshoal-review--label (overlay-get mark 'vialshoal-thread)
                                            1)))
        (should (string-search "kill-emacs" label))
        (should-not (string-match-p "[\n\e\u202e]" label))))
    (let ((huge (vialshoal-review-test--thread "8:1" 0 3 :time (expt 2 53)
                                               :body (make-string 100000 ?x))))
      (vialshoal-review-test--show huge))))

(ert-deftest vialshoal-review-the-list-has-filters-and-keys ()
  (save-window-excursion
    (vialshoal-support-with-note vialshoal-support--open
      (let ((note (current-buffer))
            (threads (vector
                      (vialshoal-review-test--thread
                       "8:1" 0 1 :body vialshoal-review-test--hostile)
                      (vialshoal-review-test--thread "8:2" 1 2 :state "resolved")
                      (vialshoal-review-test--thread "9:3" 2 3 :name "50%"))))
        (apply #'vialshoal-review-test--show (append threads nil))
        (vialshoal-remarks)
        (with-current-buffer note
          (should (equal (vialshoal-review-test--sent)
                         '(:do "remarks" :from 0 :version 0)))
          ;; A line of the engine's has only so many of them.
          (vialshoal-review-test--answer :answer "remarks" :of 3
                                         :threads (substring threads 0 2))
          (should (equal (vialshoal-review-test--sent)
                         '(:do "remarks" :from 2 :version 0)))
          (vialshoal-review-test--answer :answer "remarks" :of 3
                                         :threads (substring threads 2)))
        (should (equal (buffer-name) "*remarks of picnic*"))
        (cl-flet ((lines () (length (split-string (buffer-string) "\n" t))))
          (should (= (lines) 2))
          (should-not (string-match-p "[\e\u202e]" (buffer-string)))
          (vialshoal-remarks-toggle)
          (should (= (lines) 3))
          (vialshoal-remarks-of "50%")
          (should (= (lines) 1))
          (should (equal mode-line-process " all of 50%%"))
          (vialshoal-remarks-of ""))
        (goto-char (point-min))
        (should (string-search "kill-emacs"
                               (substitute-command-keys
                                (funcall (get-text-property (+ 2 (point))
                                                            'help-echo)))))
        (forward-line 1)
        (call-interactively (key-binding "o"))
        (with-current-buffer note
          (should (equal (vialshoal-review-test--sent)
                         '(:do "reopen" :to "8:2"))))
        (forward-line 1)
        (let ((inhibit-message t))
          (call-interactively (key-binding (kbd "RET"))))
        (should (eq (current-buffer) note))
        (should (= (point) 3))
        (kill-buffer "*remarks of picnic*")))))

(ert-deftest vialshoal-review-what-is-refused-is-kept ()
  (vialshoal-support-with-note vialshoal-support--open
    (let ((inhibit-message t) kill-ring)
      (vialshoal-remark 1 2 "Why?")
      (vialshoal-review-test--answer :answer "remark" :error "margin"
                                     :words "This note has no margin: 50%s.")
      (should (string-prefix-p "This note has no margin: 50%s."
                               vialshoal--words))
      (should (equal kill-ring '("Why?")))
      (vialshoal-remark 1 2 "And this?")
      (vialshoal-review-test--answer :answer "remark" :thread "7:1")
      ;; An engine that ends doesn't answer any more.
      (vialshoal-remark 1 2 "One")
      (vialshoal-suggest 1 2 "Two")
      (vialshoal--forget)
      (should (equal kill-ring '("One\n\nTwo" "Why?"))))))

(ert-deftest vialshoal-review-only-who-wants-remarks-asks-for-them ()
  (dolist (wants '(nil t))
    (vialshoal-support-with-note vialshoal-support--open
      (vialshoal-support--sent)
      (let ((vialshoal-shows-remarks wants))
        (vialshoal--send-open nil))
      (should (eq (plist-get (car (vialshoal-support--sent)) :remarks)
                  wants)))))

(ert-deftest vialshoal-changed-what-came-and-went-is-shown ()
  (vialshoal-support-with-note vialshoal-support--open
    (vialshoal-changed)
    (should (equal (vialshoal-review-test--sent)
                   '(:do "changed" :version 0 :since "looked")))
    (should (string-match-p
             "2 stretches changed.*; n and p go there, q ends it"
             (vialshoal-review-test--told
               (vialshoal-review-test--answer
                :answer "changed" :since 0
                :came [(:begin 1 :end 2 :site 8 :name "Bo"
                              :by (:site 8 :name "Bo"))]
                :went [(:at 3 :text "50% \e[1m" :site 9 :name "\\[x]"
                             :by (:site 8 :name "Bo"))]))))
    (should vialshoal-changed-mode)
    (should (eq (overlay-get (car vialshoal-changed--marks) 'face)
                'vialshoal-came))
    (should (equal (overlay-get (cadr vialshoal-changed--marks) 'before-string)
                   "50% \ufffd[1m"))
    (goto-char 1)
    (should (equal (vialshoal-review-test--told
                     (call-interactively (key-binding "n")))
                   "Came, of Bo"))
    (should (= (point) 2))
    (should (equal (vialshoal-review-test--told
                     (call-interactively (key-binding "n")))
                   "Went, of \\[x], by Bo: 50% \ufffd[1m"))
    (should (= (point) 4))
    (vialshoal-review-test--told (call-interactively (key-binding "p")))
    (should (= (point) 2))
    (vialshoal-review-test--told (call-interactively (key-binding "p")))
    (should (= (point) 4))
    (call-interactively (key-binding "q"))
    (should-not vialshoal-changed-mode)
    (should-not (overlays-in 1 (point-max)))))

(ert-deftest vialshoal-changed-one-says-since-when ()
  (vialshoal-support-with-note vialshoal-support--open
    (setq vialshoal-support--now 10000.5)
    (vialshoal-changed 2)
    (should (equal (vialshoal-review-test--sent)
                   '(:do "changed" :version 0 :since (:time 2800))))
    (should (string-match-p
             "Nothing has changed"
             (vialshoal-review-test--told
               (vialshoal-review-test--answer :answer "changed" :since 2800
                                              :came [] :went []))))
    (should-not vialshoal-changed-mode)))

(ert-deftest vialshoal-changed-it-is-asked-anew-where-the-text-was-another ()
  (vialshoal-support-with-note vialshoal-support--open
    (vialshoal-changed)
    (insert "x")
    (vialshoal-support--take :id 1 :answer "changed" :edits 0 :since 0
                             :came [(:begin 1 :end 2 :site 8)] :went [])
    (should-not vialshoal-changed--marks)
    (vialshoal-support--sent)
    (vialshoal-support--take :answer "edit" :edits 1)
    (vialshoal-changed--again (current-buffer) "looked")
    (should (equal (vialshoal-review-test--sent)
                   '(:do "changed" :version 0 :since "looked")))))

(provide 'vialshoal-review-test)
;;; vialshoal-review-test.el ends here
