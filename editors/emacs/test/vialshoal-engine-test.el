;;; vialshoal-engine-test.el --- With real engines  -*- lexical-binding: t; -*-

;;; Commentary:

;; Notes that engines have open, which run the proved program.

;;; Code:

(require 'vialshoal-engine-support)

(ert-deftest vialshoal-engine-two-people-write-one-text ()
  (vialshoal-engine-with-folder
    (pcase-let ((`(,ada ,bo) (vialshoal-engine--two)))
      (vialshoal-engine--type ada "tea 🍰\r\nmilk")
      (vialshoal-engine--shows bo "tea 🍰\r\nmilk")
      (with-current-buffer bo
        (goto-char 6))
      (vialshoal-engine--type bo "漢!")
      (vialshoal-engine--shows ada "tea 🍰漢!\r\nmilk")
      (with-current-buffer ada
        (vialshoal-engine--command #'goto-char 1)
        (vialshoal-engine--command #'delete-char 4))
      (vialshoal-engine--shows bo "🍰漢!\r\nmilk"))))

(ert-deftest vialshoal-engine-a-line-is-killed-above-which-another-opens-one ()
  (vialshoal-engine-with-folder
    (pcase-let ((`(,ada ,bo) (vialshoal-engine--two)))
      (vialshoal-engine--type ada "tea\nmilk\nrice")
      (vialshoal-engine--shows bo "tea\nmilk\nrice")
      (with-current-buffer ada
        (vialshoal-engine--command #'goto-char 5))
      (with-current-buffer bo
        (goto-char 5)
        (vialshoal-engine--command #'insert "jam\n"))
      (vialshoal-engine--shows ada "tea\njam\nmilk\nrice")
      (with-current-buffer ada
        (vialshoal-engine--command #'kill-line))
      (vialshoal-engine--shows bo "tea\njam\n\nrice"))))

(ert-deftest vialshoal-engine-undo-takes-back-ones-own-edit ()
  (vialshoal-engine-with-folder
    (pcase-let ((`(,ada ,bo) (vialshoal-engine--two)))
      (vialshoal-engine--type ada "mine")
      (vialshoal-engine--shows bo "mine")
      (with-current-buffer bo
        (goto-char 3))
      (vialshoal-engine--type bo " yours ")
      (vialshoal-engine--shows ada "mi yours ne")
      (with-current-buffer ada
        (should (eq (key-binding (kbd "C-/")) #'vialshoal-undo))
        (should (eq (key-binding (kbd "C-_")) #'vialshoal-undo))
        (should (eq (key-binding (kbd "C-M-_")) #'vialshoal-redo))
        (should (eq buffer-undo-list t))
        (vialshoal-undo))
      (vialshoal-engine--shows ada " yours ")
      (vialshoal-engine--shows bo " yours ")
      (with-current-buffer ada
        (vialshoal-redo))
      (vialshoal-engine--shows ada "mi yours ne")
      (vialshoal-engine--shows bo "mi yours ne"))))

(ert-deftest vialshoal-engine-an-undo-takes-twenty-keys-back ()
  (vialshoal-engine-with-folder
    (let ((ada (vialshoal-engine--open "Ada")))
      (dolist (words '("aaaaaaaaaaaa" "bbbbbbbb" "ccc"))
        (vialshoal-engine--type ada words)
        (vialshoal-engine--wait (lambda () (vialshoal-engine--is-quiet ada))))
      (with-current-buffer ada
        (vialshoal-undo))
      (vialshoal-engine--shows ada "aaaaaaaaaaaabbbbbbbb"))))

(ert-deftest vialshoal-engine-two-who-edit-at-random-meet ()
  (vialshoal-engine-with-folder
    (let* ((buffers (vialshoal-engine--two))
           ;; Somebody else at the same engine.
           (buffers (cons (vialshoal-engine--open "Ada") buffers))
           (words 0))
      (random "vialshoal")
      (dotimes (turn 120)
        (with-current-buffer (nth (random 3) buffers)
          (goto-char (1+ (random (1+ (buffer-size)))))
          (pcase (random 10)
            ((or 0 1) (vialshoal-engine--command
                       #'delete-region (point)
                       (min (point-max) (+ (point) (random 6)))))
            (2 (vialshoal-engine--command #'vialshoal-undo))
            (3 (vialshoal-engine--command
                #'upcase-region (point) (point-max)))
            (4 (vialshoal-engine--command
                (lambda () (goto-char (point-min))
                  (while (search-forward "a" nil t)
                    (replace-match "é🎉")))))
            (_ (vialshoal-engine--type
                (current-buffer) (format "w%d aß🍰\n" (cl-incf words))))))
        (when (= 0 (random 3))
          (accept-process-output nil 0.01)))
      (should (> (length (vialshoal-engine--meet buffers)) 50)))))

(ert-deftest vialshoal-engine-a-command-is-one-edit ()
  (vialshoal-engine-with-folder
    (let ((ada (vialshoal-engine--open "Ada")))
      (vialshoal-engine--type ada "a b a b a b\n")
      (with-current-buffer ada
        (vialshoal-engine--wait (lambda () (vialshoal-engine--is-quiet ada)))
        (let ((made vialshoal--made))
          (vialshoal-engine--command #'replace-string-in-region "a" "long" 1)
          (should (= vialshoal--made (1+ made))))
        (vialshoal-undo))
      (vialshoal-engine--shows ada "a b a b a b\n"))))

;; Each key is there once, and in its order, however the engine ends.

(defun vialshoal-engine-test--types-while-killed (ada kill)
  "Type into ADA while KILL ends the engine, 6 times; return what was typed."
  (random "killed")
  (let ((typed ""))
    (dotimes (turn 6)
      (let* ((keys (format "%d:%s\n" turn (make-string (+ 5 (random 20)) ?x)))
             (at (random (length keys))))
        (dotimes (number (length keys))
          (when (= number at)
            (funcall kill))
          (vialshoal-engine--type ada (substring keys number (1+ number)))
          (accept-process-output nil 0))
        (setq typed (concat typed keys)))
      (should (equal (vialshoal-support--text ada) typed))
      ;; Every other time the next engine ends before it has all.
      (when (cl-evenp turn)
        (vialshoal-engine--wait (lambda () (vialshoal-engine--is-open ada)))))
    (vialshoal-engine--wait (lambda () (vialshoal-engine--is-quiet ada)))
    typed))

(defun vialshoal-engine--is-open (buffer)
  "Say whether the engine of BUFFER has the note open, as one that ran long."
  (with-current-buffer buffer
    (when vialshoal--is-open
      (setq vialshoal--begun 0))))

(defun vialshoal-engine-test--takes-all-back (ada typed)
  "Take back in ADA what was TYPED, step by step."
  (while (not (string-empty-p typed))
    (with-current-buffer ada
      (vialshoal-undo))
    (vialshoal-engine--wait
     (lambda () (not (equal typed (vialshoal-support--text ada)))))
    (let ((text (vialshoal-support--text ada)))
      (should (string-prefix-p text typed))
      (setq typed text))))

(ert-deftest vialshoal-engine-each-key-is-kept-where-the-engine-is-killed ()
  (vialshoal-engine-with-folder
    (let* ((ada (vialshoal-engine--open "Ada"))
           (typed (vialshoal-engine-test--types-while-killed
                   ada (lambda () (vialshoal-engine--kill "Ada")))))
      (should (equal typed (vialshoal-support--text ada)))
      (vialshoal-engine-test--takes-all-back ada typed))))

(ert-deftest vialshoal-engine-each-key-is-kept-where-the-line-to-it-ends ()
  (vialshoal-engine-with-folder
    (let* ((ada (vialshoal-engine--open "Ada"))
           (typed (vialshoal-engine-test--types-while-killed
                   ada (lambda ()
                         (signal-process
                          (vialshoal-engine--wait
                           (lambda ()
                             (with-current-buffer ada
                               (and (process-live-p vialshoal--process)
                                    vialshoal--process))))
                          'SIGKILL)))))
      (kill-buffer ada)
      (let ((again (vialshoal-engine--open "Ada")))
        (should (equal typed (vialshoal-support--text again)))))))

(ert-deftest vialshoal-engine-others-type-while-an-engine-is-killed ()
  (vialshoal-engine-with-folder
    (pcase-let ((`(,ada ,bo) (vialshoal-engine--two)))
      (vialshoal-engine--type ada "ada:\nbo:\n")
      (vialshoal-engine--shows bo "ada:\nbo:\n")
      (with-current-buffer ada (goto-char 5))
      (with-current-buffer bo (goto-char 9))
      (dotimes (number 3)
        (vialshoal-engine--type ada (format "a%d " number))
        (vialshoal-engine--kill "Ada")
        (vialshoal-engine--type bo (format "b%d " number))
        (vialshoal-engine--type ada "c ")
        (vialshoal-engine--wait (lambda () (vialshoal-engine--is-open ada)))
        (vialshoal-engine--type ada "d "))
      (should (equal (vialshoal-engine--meet (list ada bo))
                     "ada:a0 c d a1 c d a2 c d \nbo:b0 b1 b2 \n")))))

(ert-deftest vialshoal-engine-an-engine-that-cannot-be-started-is-tried-again ()
  (vialshoal-engine-with-folder
    (let ((ada (vialshoal-engine--open "Ada")))
      (vialshoal-engine--type ada "kept")
      (let ((vialshoal-command '("/nowhere/note")))
        (vialshoal-engine--kill "Ada")
        (with-current-buffer ada
          (vialshoal-engine--wait
           (lambda ()
             (and vialshoal--is-away (> vialshoal-again--tries 1)
                  (string-match-p "nowhere" vialshoal--words))))
          (should (equal (vialshoal--lighter)
                         " Note:engine ended, all is kept here")))
        (vialshoal-engine--type ada " and more"))
      (vialshoal-engine--wait (lambda () (vialshoal-engine--is-quiet ada)))
      (should (equal (vialshoal-support--text ada) "kept and more")))))

(ert-deftest vialshoal-engine-who-closes-without-an-engine-loses-nothing ()
  (vialshoal-engine-with-folder
    (let ((ada (vialshoal-engine--open "Ada")))
      (vialshoal-engine--type ada "kept")
      (vialshoal-engine--kill "Ada")
      (vialshoal-engine--type ada " and more")
      (kill-buffer ada)
      (should (equal (vialshoal-support--text (vialshoal-engine--open "Ada"))
                     "kept and more")))))

(ert-deftest vialshoal-engine-a-file-is-saved ()
  (vialshoal-engine-with-folder
    (let ((ada (vialshoal-engine--open "Ada"))
          (path (expand-file-name "saved" vialshoal-engine--folder)))
      (vialshoal-engine--type ada "tea 🍰\r\n")
      (with-current-buffer ada
        (vialshoal-save-as path)
        (vialshoal-engine--wait (lambda () (file-exists-p path)))
        (goto-char (point-max)))
      (vialshoal-engine--type ada "milk")
      (with-current-buffer ada
        (cl-letf (((symbol-function 'y-or-n-p) #'ignore))
          (should-error (vialshoal-save-as path) :type 'user-error))
        (cl-letf (((symbol-function 'y-or-n-p) (lambda (_) t)))
          (vialshoal-save-as path)))
      (with-temp-buffer
        (set-buffer-multibyte nil)
        (vialshoal-engine--wait
         (lambda ()
           (erase-buffer)
           (insert-file-contents-literally path)
           (equal (buffer-string)
                  (encode-coding-string "tea 🍰\r\nmilk" 'utf-8-unix))))))))

(ert-deftest vialshoal-engine-others-cursors-are-shown ()
  (vialshoal-engine-with-folder
    (let ((ada (vialshoal-engine--open "Ada"))
          (bo (vialshoal-engine--open "Ada")))
      (with-current-buffer bo
        (vialshoal-engine--type bo "some words")
        (vialshoal-engine--command #'goto-char 3))
      (with-current-buffer ada
        (vialshoal-engine--wait
         (lambda () (cl-some (lambda (cursor) (= (plist-get cursor :at) 2))
                             vialshoal--cursors)))
        (should (cl-some (lambda (overlay) (= (overlay-start overlay) 3))
                         vialshoal--overlays))
        (should (string-match-p "2 on" (vialshoal--lighter)))))))

(ert-deftest vialshoal-engine-a-macro-lets-others-text-in ()
  (vialshoal-engine-with-folder
    (pcase-let ((`(,ada ,bo) (vialshoal-engine--two)))
      (vialshoal-engine--type bo "\n")
      (vialshoal-engine--shows ada "\n")
      (vialshoal-engine--type bo "hello")
      (set-window-buffer nil ada)
      (with-current-buffer ada
        (goto-char 1)
        (let ((begun (float-time)) (came nil))
          ;; A macro doesn't read lines by itself.
          (execute-kbd-macro
           (make-vector 50 ?x) 0
           (lambda ()
             (setq came (save-excursion (search-forward "hello" nil t)))
             (and (not came) (< (- (float-time) begun)
                                vialshoal-engine--patience))))
          ;; It would have gone on for two minutes.
          (should came)))
      (vialshoal-engine--meet (list ada bo)))))

(ert-deftest vialshoal-engine-who-quits-at-once-loses-nothing ()
  (vialshoal-engine-with-folder
    (vialshoal-engine--type (vialshoal-engine--open "Ada") "before\n")
    (kill-buffer "Ada")
    (let ((process-environment
           (cons (format "VIALSHOAL_DATA=%s/Ada" vialshoal-engine--folder)
                 process-environment)))
      (call-process
       (expand-file-name invocation-name invocation-directory) nil nil nil
       "-Q" "--batch" "-l" (locate-library "vialshoal") "--eval"
       (format "%S" `(with-current-buffer
                         (let ((vialshoal-command ',vialshoal-command))
                           (vialshoal-open "picnic"))
                       (while buffer-read-only
                         (accept-process-output nil 0.01))
                       (insert (make-string 300000 ?x) "all of it")
                       (kill-emacs)))))
    (with-current-buffer (vialshoal-engine--open "Ada")
      (should (= (buffer-size) (+ 300000 9 7)))
      (should (looking-at "x+all of itbefore\n")))))

(ert-deftest vialshoal-engine-what-cannot-be-opened-says-why ()
  (vialshoal-engine-with-folder
    (let* ((process-environment
            (append (list "VIALSHOAL_PROGRAM=/nowhere"
                          (format "VIALSHOAL_DATA=%s" vialshoal-engine--folder))
                    process-environment))
           (buffer (vialshoal-open "picnic")))
      (with-current-buffer buffer
        (vialshoal-engine--wait
         (lambda () (not (process-live-p vialshoal--process))))
        (vialshoal-engine--wait (lambda () vialshoal--words))
        (should buffer-read-only)
        (should (string-match-p "nowhere" vialshoal--words))
        (should (equal (vialshoal--lighter) " Note:closed"))))))

(ert-deftest vialshoal-engine-who-wrote-this-and-what-was-before ()
  (vialshoal-engine-with-folder
    (pcase-let ((`(,ada ,bo) (vialshoal-engine--two)) (said nil))
      (vialshoal-engine--type ada "one ")
      (vialshoal-engine--shows bo "one ")
      (with-current-buffer bo
        (goto-char (point-max)))
      (vialshoal-engine--type bo "two")
      (vialshoal-engine--shows ada "one two")
      (cl-letf (((symbol-function 'message)
                 (lambda (format &rest rest)
                   (setq said (and format (apply #'format format rest))))))
        (with-current-buffer ada
          (vialshoal-who-wrote-this 1 8))
        (vialshoal-engine--wait
         (lambda () (and said (string-match-p
                               "\\`you: 4 characters; .+: 3 characters\\'"
                               said)))))
      (with-current-buffer ada
        (vialshoal-history))
      (with-current-buffer (vialshoal-engine--wait
                            (lambda () (get-buffer "*history of picnic*")))
        (vialshoal-engine--wait
         (lambda () (equal (buffer-string) "one two")))
        (should (string-match-p " typed 3$" header-line-format))
        (vialshoal-history-previous 1)
        (vialshoal-engine--wait (lambda () (equal (buffer-string) "one ")))
        (vialshoal-history-first)
        (vialshoal-engine--wait (lambda () (equal (buffer-string) "")))
        (kill-buffer)))))

(provide 'vialshoal-engine-test)
;;; vialshoal-engine-test.el ends here
