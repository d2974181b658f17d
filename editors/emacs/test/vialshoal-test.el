;;; vialshoal-test.el --- With no engine  -*- lexical-binding: t; -*-

;;; Commentary:

;; The buffer of a note, others' text and names in it, and what is sent of
;; all that changes there.

;;; Code:

(require 'vialshoal-support)
(require 'org)

(defvar vialshoal-test--obeyed nil
  "What a note's text would set that was obeyed.")

(defun vialshoal-test--opened (text)
  "Return the answer `open' with TEXT."
  (plist-put (copy-sequence vialshoal-support--open) :text text))

(defun vialshoal-test--command (function &rest arguments)
  "Call FUNCTION with ARGUMENTS as a command, and answer what is sent."
  (vialshoal--pre-command)
  (apply function arguments)
  (vialshoal--post-command)
  (vialshoal-support--take :answer "edit" :edits vialshoal--made))

(defun vialshoal-test--replay (text lines)
  "Return what TEXT becomes by the edits of LINES."
  (with-temp-buffer
    (insert text)
    (dolist (line lines)
      (pcase-dolist (`(,begin ,end ,new) (plist-get line :changes))
        (goto-char (1+ begin))
        (delete-region (1+ begin) (1+ end))
        (insert new)))
    (buffer-string)))

(defun vialshoal-test--others (&rest changes)
  "Have others make CHANGES."
  (vialshoal-support--take :notice "changes" :version (1+ vialshoal--version)
                           :edits vialshoal--made :changes (vconcat changes)))

(ert-deftest vialshoal-test-nothing-in-a-text-is-obeyed ()
  (let ((text (concat "-*- mode: emacs-lisp; eval: "
                      "(setq vialshoal-test--obeyed t) -*-\n\f\n"
                      "Local Variables:\nmode: emacs-lisp\nfill-column: 13\n"
                      "eval: (setq vialshoal-test--obeyed t)\nEnd:\n"))
        (enable-local-variables :all)
        (enable-local-eval t)
        (vialshoal-test--obeyed nil))
    (dolist (mode '(normal-mode text-mode org-mode emacs-lisp-mode
                                fundamental-mode normal-mode))
      (vialshoal-support-with-note (vialshoal-test--opened text)
        (funcall mode)
        (when (eq mode 'normal-mode)
          (should-not (eq major-mode 'emacs-lisp-mode)))
        (hack-local-variables)
        (should-not vialshoal-test--obeyed)
        (should-not (= fill-column 13))))))

(ert-deftest vialshoal-test-another-major-mode-leaves-the-note ()
  (dolist (mode '(org-mode emacs-lisp-mode normal-mode))
    (vialshoal-support-with-note vialshoal-support--open
      (funcall mode)
      (should vialshoal-mode)
      (should (eq buffer-undo-list t))
      (vialshoal-test--command #'insert "x")
      (should (equal (mapcar (lambda (line) (plist-get line :changes))
                             (vialshoal-support--sent))
                     '(((0 0 "x"))))))))

(ert-deftest vialshoal-test-names-are-cut-and-have-no-controls ()
  (should (equal (vialshoal--shown-name "A\e[31m\u202eda\n\x85") "A[31mda"))
  (should (= (length (vialshoal--shown-name (make-string 99 ?漢))) 40))
  (should (equal (vialshoal--shown-name nil) ""))
  (should (eq (vialshoal--shown-colour "#3366cc\n") 'unspecified))
  (should (eq (vialshoal--shown-colour '(evil)) 'unspecified))
  (should (equal (substitute-command-keys
                  (vialshoal--in-help "\\[save-buffer] \\=\\{x}"))
                 "\\[save-buffer] \\=\\{x}")))

(ert-deftest vialshoal-test-the-mode-line-shows-what-others-wrote-as-it-is ()
  (vialshoal-support-with-note vialshoal-support--open
    (vialshoal-support--take
     :notice "state" :log "away" :unsent 12 :on 3 :types t :waiting 0
     :trouble "%n %[%{(delete-file)}%b")
    (cl-letf (((symbol-function 'process-live-p) (lambda (_) t)))
      (should (string-prefix-p " Note:offline, 12 kept, 3 on, trouble: %%n %%["
                               (vialshoal--lighter))))))

(ert-deftest vialshoal-test-the-mode-line-says-what-is-left-out ()
  (vialshoal-support-with-note vialshoal-support--open
    (vialshoal-support--take
     :notice "state" :log "sent" :unsent 0 :on 1 :types t :waiting 0
     :left_out [(:site 7 :own :false :name "A%da\e" :characters 14 :messages 1)
                (:site 9 :own t :characters 3 :messages 2)
                (:site 4 :own :false :characters 2 :messages 2)
                (:site 5 :own :false :characters 1 :messages 1)]
     :renewed '(:site 8 :own :false) :unproved t)
    (cl-letf (((symbol-function 'process-live-p) (lambda (_) t)))
      (should (equal (vialshoal--lighter)
                     (concat " Note:sent, left out: 14 of A%%da, 3 of you, "
                             "2 of site 4, .., renewed by site 8, not proved"))))))

(ert-deftest vialshoal-test-the-history-has-what-was-left-out ()
  (vialshoal-support-with-note vialshoal-support--open
    (vialshoal-history)
    (vialshoal-support--take
     :id vialshoal--asked :answer "history" :length 1
     :steps [(:begin 0 :end 1 :site 7 :own :false :typed 4 :deleted 0)]
     :left_out [(:site 8 :own :false :name "Bo" :characters 4 :messages 1
                       :text "lost")
                (:site 9 :own t :characters 3 :messages 1 :text "he\n")])
    (vialshoal-support--take :id vialshoal--asked :answer "past" :at 1
                             :text "tea\n" :stretches [])
    (let ((note (current-buffer)))
      (with-current-buffer "*history of picnic*"
        (should (equal (buffer-string) "tea\n"))
        (dotimes (_ 2)
          (vialshoal-history-next 1)
          (should (equal (vialshoal-support--text) "lost\nhe\n")))
        (should (equal header-line-format
                       (concat "Left out, since others hold its place: "
                               "4 of Bo, 3 of you")))
        (should (equal (get-text-property 2 'help-echo) "Bo"))
        (should-not (get-text-property 5 'help-echo))
        (should (equal (get-text-property 6 'help-echo) "you"))
        (dolist (goes-on '(t nil))
          (vialshoal-history-previous 1)
          (when goes-on
            (vialshoal-history-next 1))
          (with-current-buffer note
            (vialshoal-support--take :id vialshoal--asked :answer "past" :at 1
                                     :text "tea\n" :stretches []))
          (should (equal (vialshoal-support--text)
                         (if goes-on "lost\nhe\n" "tea\n"))))
        (kill-buffer)))))

(ert-deftest vialshoal-test-point-and-region-stay ()
  (vialshoal-support-with-note (vialshoal-test--opened "one two three\n")
    (goto-char 5)
    (push-mark 8 t t)
    (setq deactivate-mark nil)
    (vialshoal-test--others [0 0 ">> "] [8 8 "!"])
    (should (equal (vialshoal-support--text) ">> one t!wo three\n"))
    (should (equal (buffer-substring (point) (mark)) "t!wo"))
    (should mark-active)
    (should-not deactivate-mark)
    ;; What comes in at point comes in behind it, as others see it.
    (vialshoal-test--others [7 7 "X"])
    (should (looking-at "Xt!wo"))
    ;; What is in the middle of what gives way stands where that was.
    (vialshoal-test--others [5 9 "new"])
    (should (looking-at "new!wo"))
    (should (equal (vialshoal-support--text) ">> onnew!wo three\n"))))

(defun vialshoal-test--comes (&rest changes)
  "Have others' CHANGES come as a line from the engine's process."
  (setq vialshoal--lines
        (nconc vialshoal--lines
               (list (json-serialize
                      (list :notice "changes" :version (1+ vialshoal--version)
                            :edits vialshoal--made
                            :changes (vconcat changes))))))
  (vialshoal--take-lines))

(ert-deftest vialshoal-test-a-replacement-is-where-it-was-asked-for ()
  (vialshoal-support-with-note (vialshoal-test--opened "foo and foo here\n")
    (let ((note (current-buffer)) (answers 0))
      (cl-letf (((symbol-function 'read-event)
                 (lambda (&rest _)
                   (with-current-buffer note
                     (vialshoal-test--comes [0 0 "A line.\n"]))
                   (cl-incf answers)
                   ?y)))
        (goto-char (point-min))
        (perform-replace "foo" "bar" t nil nil))
      (should (= answers 2))
      (should (equal (vialshoal-support--text) "bar and bar here\n"))
      ;; Others' text, which didn't know of these edits, is sent anew.
      (should (equal (mapcar (lambda (line) (plist-get line :changes))
                             (vialshoal-support--sent))
                     '(((0 3 "bar") (8 11 "bar")))))
      (should (zerop vialshoal--version))
      (vialshoal-test--comes [0 0 "A line.\n"])
      (should (equal (vialshoal-support--text)
                     "A line.\nbar and bar here\n")))))

(ert-deftest vialshoal-test-a-command-that-fails-holds-no-longer ()
  (vialshoal-support-with-note vialshoal-support--open
    (should-error
     (cl-letf (((symbol-function 'read-event) (lambda (&rest _) (error "No"))))
       (goto-char (point-min))
       (perform-replace "tea" "milk" t nil nil)))
    (vialshoal-test--comes [0 0 "A "])
    (should (equal (vialshoal-support--text) "A tea\n"))))

(ert-deftest vialshoal-test-a-region-is-held-while-a-command-asks ()
  (vialshoal-support-with-note (vialshoal-test--opened "one two\n")
    (let ((note (current-buffer)) (depth 1) (transient-mark-mode t))
      (cl-letf (((symbol-function 'minibuffer-selected-window)
                 #'selected-window)
                ((symbol-function 'recursion-depth) (lambda () depth)))
        (save-window-excursion
          (switch-to-buffer note)
          ;; With no region nothing is held.
          (run-hooks 'minibuffer-setup-hook)
          (vialshoal-test--comes [0 0 "0"])
          (should (equal (vialshoal-support--text) "0one two\n"))
          (goto-char 2)
          (push-mark 5 t t)
          (run-hooks 'minibuffer-setup-hook)
          (vialshoal-test--comes [0 0 "A line.\n"])
          (run-hooks 'post-command-hook)
          (should (equal (vialshoal-support--text) "0one two\n"))
          (setq depth 0)
          (run-hooks 'post-command-hook)
          (should (equal (vialshoal-support--text) "A line.\n0one two\n"))
          (should (cl-every #'symbolp (default-value 'post-command-hook))))))))

(ert-deftest vialshoal-test-a-narrowed-buffer-gets-all ()
  (vialshoal-support-with-note (vialshoal-test--opened "one\ntwo\nthree\n")
    (narrow-to-region 5 8)
    (vialshoal-test--others [0 3 "1"] [6 11 "3"])
    (should (equal (buffer-string) "two"))
    (goto-char (point-max))
    (vialshoal-test--command #'insert "!")
    (should (equal (vialshoal-support--text) "1\ntwo!\n3\n"))
    (should (equal (plist-get (car (vialshoal-support--sent)) :changes)
                   '((5 5 "!"))))))

(ert-deftest vialshoal-test-what-no-hook-tells-is-sent ()
  (vialshoal-support-with-note (vialshoal-test--opened "one two three\n")
    (vialshoal-test--command
     (lambda ()
       (let ((inhibit-modification-hooks t))
         (goto-char 5)
         (delete-char 3)
         (insert "2"))))
    (should (equal (plist-get (car (vialshoal-support--sent)) :changes)
                   '((4 7 "2"))))
    (let ((inhibit-modification-hooks t))
      (insert "!"))
    (vialshoal-test--others [0 0 "> "])
    (should (equal (plist-get (car (vialshoal-support--sent)) :changes)
                   '((5 5 "!"))))
    (vialshoal-support--check-mirror)))

(ert-deftest vialshoal-test-what-stays-is-not-sent ()
  (vialshoal-support-with-note (vialshoal-test--opened "one two Three\n")
    (vialshoal-test--command #'put-text-property 1 8 'face 'bold)
    (should-not (vialshoal-support--sent))
    (vialshoal-test--command #'upcase-region 7 11)
    (should (equal (plist-get (car (vialshoal-support--sent)) :changes)
                   '((6 10 "O TH"))))
    (vialshoal-test--command
     (lambda ()
       (let ((new (generate-new-buffer " *new*")))
         (with-current-buffer new (insert "one twO TH-ree\n"))
         (replace-buffer-contents new)
         (kill-buffer new))))
    (should (equal (plist-get (car (vialshoal-support--sent)) :changes)
                   '((10 10 "-"))))))

(ert-deftest vialshoal-test-filling-keeps-the-words ()
  (vialshoal-support-with-note
      (vialshoal-test--opened "one two\nthree  four\nfive six seven\n")
    (goto-char (point-min))
    (setq fill-column 9)
    (vialshoal-test--command #'fill-paragraph)
    (should (equal (vialshoal-support--text)
                   "one two\nthree\nfour five\nsix seven\n"))
    (pcase-dolist (`(,begin ,end ,new)
                   (mapcan (lambda (line) (plist-get line :changes))
                           (vialshoal-support--sent)))
      (should (<= (- end begin) 2))
      (should (string-blank-p new)))
    (vialshoal-support--check-mirror)))

(ert-deftest vialshoal-test-only-characters-of-unicode-are-sent ()
  (vialshoal-support-with-note (vialshoal-test--opened "ab\n")
    (vialshoal-test--command #'insert (string ?x #x3fff80 #xd800 ?y))
    (should (equal (plist-get (car (vialshoal-support--sent)) :changes)
                   '((0 0 "x\ufffd\ufffdy"))))
    (should (equal (vialshoal-support--text) "x\ufffd\ufffdyab\n"))
    (vialshoal-support--check-mirror)
    (vialshoal-test--command #'insert "z")
    (should (equal (plist-get (car (vialshoal-support--sent)) :changes)
                   '((4 4 "z"))))))

(ert-deftest vialshoal-test-much-is-sent-in-parts-that-are-undone-together ()
  (vialshoal-support-with-note (vialshoal-test--opened "ab")
    (let ((text (concat (make-string 1000000 ?x) (make-string 1000000 ?y) "z")))
      (goto-char 2)
      (vialshoal-test--command #'insert text)
      (let ((lines (vialshoal-support--sent)))
        (should (equal (mapcar (lambda (line) (plist-get line :edits)) lines)
                       '(1 2 3)))
        (should (equal (mapcar (lambda (line) (plist-get line :join)) lines)
                       '(nil t t)))
        (should (equal (vialshoal-test--replay "ab" lines)
                       (concat "a" text "b")))))))

(ert-deftest vialshoal-test-many-changes-are-sent-in-parts ()
  (vialshoal-support-with-note vialshoal-support--open
    (let ((parts (vialshoal--in-edits (make-list 120000 [0 1 ""]))))
      (should (equal (mapcar #'length parts) '(50000 50000 20000))))))

(ert-deftest vialshoal-test-all-that-changes-at-random-is-sent ()
  (random "vialshoal")
  (let ((text "one 🍰\r\ntwo 漢字\n\nthree\n"))
    (vialshoal-support-with-note (vialshoal-test--opened text)
      (dotimes (_ 500)
        (goto-char (1+ (random (1+ (buffer-size)))))
        (let ((end (min (point-max) (+ (point) (random 9)))))
          (vialshoal-test--command
           (pcase (random 12)
             (0 (lambda () (delete-region (point) end)))
             (1 (lambda () (upcase-region (point) end)))
             (2 (lambda () (subst-char-in-region (point) end ?o ?0)))
             (3 (lambda () (transpose-regions (point-min) (point) (point) end)))
             (4 (lambda () (ignore-errors (fill-paragraph))))
             (5 (lambda () (sort-lines nil (point-min) (point))))
             (6 (lambda ()
                  (combine-change-calls (point-min) (point-max)
                    (delete-region (point) end)
                    (goto-char (point-min))
                    (insert "a"))))
             (7 (lambda () (let ((inhibit-modification-hooks t))
                             (insert "hidden\n"))))
             (8 (lambda () (replace-string-in-region "a" "漢" (point) end)))
             (9 (lambda () (atomic-change-group
                             (insert "x")
                             (delete-region (point) (min (point-max) end)))))
             (10 (lambda () (ignore-errors
                              (atomic-change-group (insert "gone")
                                                   (error "No")))))
             (_ (lambda ()
                  (insert (seq-random-elt
                           '("aa" "🍰" "\n" "\r\n" "é" "\t " "x")))))))))
      (should (equal (vialshoal-test--replay text (vialshoal-support--sent))
                     (vialshoal-support--text)))
      (should (eq buffer-undo-list t)))))

(ert-deftest vialshoal-test-other-modes-hear-of-others-changes ()
  (vialshoal-support-with-note vialshoal-support--open
    (let (heard)
      (add-hook 'after-change-functions
                (lambda (beg end length) (push (list beg end length) heard))
                nil t)
      (vialshoal-test--others [1 2 "oo"])
      (should (equal heard '((2 2 1) (3 5 0))))
      (should-not (vialshoal-support--sent)))))

(ert-deftest vialshoal-test-a-hook-that-fails-loses-nothing ()
  (vialshoal-support-with-note vialshoal-support--open
    (add-hook 'after-change-functions (lambda (&rest _) (error "No")) -50 t)
    (let ((inhibit-message t))
      (vialshoal-test--others [0 0 "x"])
      (should (equal (vialshoal-support--sent) '((:do "text" :edits 0))))
      (vialshoal-support--take :notice "text" :version 9 :edits 0
                               :text "xtea\n"))
    (should (equal (vialshoal-support--text) "xtea\n"))
    (goto-char 1)
    (vialshoal-test--command #'insert "y")
    (should (equal (plist-get (car (vialshoal-support--sent)) :changes)
                   '((0 0 "y"))))
    (should (memq #'vialshoal--after-change after-change-functions))))

(ert-deftest vialshoal-test-what-is-typed-while-a-text-is-asked-for-is-kept ()
  (vialshoal-support-with-note vialshoal-support--open
    (let ((inhibit-message t)
          (fails (lambda (&rest _) (error "No"))))
      (add-hook 'after-change-functions fails -50 t)
      (vialshoal-test--others [0 0 "x"])
      (remove-hook 'after-change-functions fails t)
      (vialshoal-support--sent)
      (vialshoal-test--command #'insert "own ")
      (vialshoal-support--take :notice "text" :version 9 :edits 0
                               :text "theirs\n"))
    (should (equal (vialshoal-support--text) "theirs\n"))
    (should-not (vialshoal-support--sent))
    (goto-char 1)
    (vialshoal-test--command #'insert "y")
    (should (equal (plist-get (car (vialshoal-support--sent)) :changes)
                   '((0 0 "y"))))
    (let ((beside (get-buffer "*picnic as it was here*")))
      (should (string-match-p "own " (vialshoal-support--text beside)))
      (kill-buffer beside))))

(ert-deftest vialshoal-test-text-that-gives-way-is-kept-beside ()
  (vialshoal-support-with-note vialshoal-support--open
    (vialshoal-test--command #'insert "own ")
    (vialshoal-support--sent)
    (let ((inhibit-message t))
      (vialshoal-support--take :notice "text" :version 3 :edits 1
                               :text "theirs\n"))
    (should (equal (vialshoal-support--text) "theirs\n"))
    (let ((beside (get-buffer "*picnic as it was here*")))
      (should (equal (vialshoal-support--text beside) "own tea\n"))
      (kill-buffer beside))))

(ert-deftest vialshoal-test-lines-come-in-any-parts ()
  (vialshoal-support-with-note vialshoal-support--open
    (let ((lines (concat
                  "{\"notice\":\"changes\",\"version\":1,\"edits\":0,"
                  "\"changes\":[[0,0,\"\\\\u0000 \\u0000🍰\\n\"]]}\n"
                  "{\"notice\":\"says\",\"words\":\"50% done\"}\n"))
          (inhibit-message t))
      (seq-doseq (char lines)
        (vialshoal--cut (string char))
        (vialshoal--take-lines)))
    (should (equal (vialshoal-support--text) "\\u0000 \0🍰\ntea\n"))
    (should (equal vialshoal--words "50% done"))))

(ert-deftest vialshoal-test-who-only-reads-says-what-was-seen ()
  (vialshoal-support-with-note vialshoal-support--open
    (dotimes (_ 250)
      (vialshoal-test--others [0 0 "x"]))
    (should (equal (vialshoal-support--sent)
                   '((:do "seen" :version 100) (:do "seen" :version 200))))))

(ert-deftest vialshoal-test-cursors-are-overlays ()
  (vialshoal-support-with-note (vialshoal-test--opened "one\ntwo\n")
    (vialshoal-support--take
     :notice "cursors" :edits 0
     :cursors [(:who 2 :name "A\nda%s" :colour "#3366cc" :at 1)
               (:who 3 :name "Bo" :colour "red; evil" :at 8 :anchor 4)])
    (let ((shown (overlays-in 1 (1+ (buffer-size)))))
      (should (cl-some (lambda (overlay)
                         (equal (overlay-get overlay 'after-string) " Ada%s"))
                       shown))
      (should (cl-some (lambda (overlay) (and (= (overlay-start overlay) 5)
                                              (= (overlay-end overlay) 9)))
                       shown)))
    (vialshoal-support--take :notice "cursors" :edits 0 :cursors [])
    (should-not (overlays-in 1 (1+ (buffer-size))))))

(ert-deftest vialshoal-test-keys-of-files-make-no-file ()
  (vialshoal-support-with-note vialshoal-support--open
    (should (eq (key-binding (kbd "C-x C-s")) #'vialshoal-save))
    (should (eq (key-binding (kbd "C-x C-w")) #'vialshoal-save-as))
    (should-not buffer-file-name)
    (vialshoal-mode -1)
    (should-not vialshoal--note)
    (should-not (memq #'vialshoal--after-change after-change-functions))
    (should (equal (vialshoal-support--text) "tea\n"))))

(provide 'vialshoal-test)
;;; vialshoal-test.el ends here
