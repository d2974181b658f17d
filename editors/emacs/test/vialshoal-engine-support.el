;;; vialshoal-engine-support.el --- Real engines  -*- lexical-binding: t; -*-

;;; Commentary:

;; For the tests: notes that engines have open, which run the program.

;;; Code:

(require 'vialshoal-support)

(defconst vialshoal-engine--top
  (expand-file-name "../../../" (file-name-directory
                                 (or load-file-name buffer-file-name)))
  "The folder that has the engine.")

(defvar vialshoal-engine--folder nil
  "The folder of the test's data.")

(defmacro vialshoal-engine-with-folder (&rest body)
  "Run BODY with a folder of its own, and no note open at its end."
  (declare (indent 0) (debug t))
  `(let* ((vialshoal-engine--folder (make-temp-file "vialshoal" t))
          (vialshoal-command
           (list (expand-file-name "bin/note" vialshoal-engine--top)))
          (vialshoal-name "Ada")
          (inhibit-message t))
     (unwind-protect
         (progn ,@body)
       (dolist (buffer (buffer-list))
         (when (buffer-local-value 'vialshoal--note buffer)
           (kill-buffer buffer)))
       (vialshoal--close-all)
       (vialshoal-engine--delete-folder))))

(defun vialshoal-engine--delete-folder ()
  "Delete the test's folder, in which an engine that ends may still write."
  (vialshoal-engine--wait
   (lambda ()
     (ignore-errors (delete-directory vialshoal-engine--folder t))
     (not (file-exists-p vialshoal-engine--folder)))))

(defconst vialshoal-engine--patience 300
  "How many seconds are waited for what has to come.")

(defun vialshoal-engine--wait (condition)
  "Wait until CONDITION returns something, and return it."
  (let ((end (+ (float-time) vialshoal-engine--patience)) value)
    (while (not (setq value (funcall condition)))
      (when (> (float-time) end)
        (error "It took too long"))
      (accept-process-output nil 0.01))
    value))

(defun vialshoal-engine--open (person &optional log link)
  "Open the note picnic as PERSON, with LOG and LINK, in a buffer."
  (let* ((process-environment
          (cons (format "VIALSHOAL_DATA=%s/%s" vialshoal-engine--folder person)
                process-environment))
         (vialshoal-name person)
         (buffer (vialshoal-open "picnic" log link)))
    (with-current-buffer buffer
      ;; Another editor can be opened in this Emacs then.
      (rename-buffer person t)
      (vialshoal-engine--wait
       (lambda () (and vialshoal--is-open
                       (plist-get vialshoal--state :types)))))
    buffer))

(defun vialshoal-engine--link (person)
  "Return the link of the note picnic of PERSON."
  (let ((process-environment
         (cons (format "VIALSHOAL_DATA=%s/%s" vialshoal-engine--folder person)
               process-environment)))
    (with-temp-buffer
      (call-process (car vialshoal-command) nil t nil "link" "picnic")
      (string-trim (buffer-string)))))

(defun vialshoal-engine--two ()
  "Return buffers of two people who share the note picnic by a log."
  (let* ((log (expand-file-name "shared/note.log" vialshoal-engine--folder))
         (ada (vialshoal-engine--open "Ada" log)))
    (list ada (vialshoal-engine--open
               "Bo" nil (vialshoal-engine--link "Ada")))))

(defun vialshoal-engine--command (function &rest arguments)
  "Call FUNCTION with ARGUMENTS as a command of the user's."
  (vialshoal--pre-command)
  (apply function arguments)
  (vialshoal--post-command))

(defun vialshoal-engine--holder (person)
  "Return the process id of the engine that has the note picnic of PERSON open.
It is nil if there is none."
  (let* ((path (format "%s/%s/run/picnic.lock" vialshoal-engine--folder person))
         (inode (file-attribute-inode-number (file-attributes path))))
    (with-temp-buffer
      (insert-file-contents-literally "/proc/locks")
      (and (re-search-forward
            (format "FLOCK +ADVISORY +WRITE +\\([0-9]+\\) [0-9a-f:]+:%s " inode)
            nil t)
           (string-to-number (match-string 1))))))

(defun vialshoal-engine--kill (person)
  "Kill the engine that has the note picnic of PERSON open."
  (signal-process (vialshoal-engine--wait
                   (lambda () (vialshoal-engine--holder person)))
                  'SIGKILL))

(defun vialshoal-engine--type (buffer text)
  "Type TEXT at point in BUFFER."
  (with-current-buffer buffer
    (seq-doseq (char text)
      (vialshoal-engine--command #'insert char))))

(defun vialshoal-engine--is-quiet (buffer)
  "Say whether all that was typed in BUFFER is answered."
  (with-current-buffer buffer
    (and (null vialshoal--changes) (= vialshoal--made vialshoal--answered))))

(defun vialshoal-engine--meet (buffers)
  "Wait until all BUFFERS have the same text, and return it."
  (vialshoal-engine--wait
   (lambda ()
     (and (cl-every #'vialshoal-engine--is-quiet buffers)
          (let ((texts (mapcar #'vialshoal-support--text buffers)))
            (cl-every (lambda (text) (equal text (car texts))) texts)))))
  (dolist (buffer buffers)
    (with-current-buffer buffer
      (vialshoal-support--check-mirror)))
  (vialshoal-support--text (car buffers)))

(defun vialshoal-engine--shows (buffer text)
  "Wait until BUFFER has TEXT."
  (condition-case nil
      (vialshoal-engine--wait
       (lambda () (equal text (vialshoal-support--text buffer))))
    (error (should (equal text (vialshoal-support--text buffer))))))

(provide 'vialshoal-engine-support)
;;; vialshoal-engine-support.el ends here
