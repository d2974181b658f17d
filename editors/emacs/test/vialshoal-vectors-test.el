;;; vialshoal-vectors-test.el --- The vectors  -*- lexical-binding: t; -*-

;;; Commentary:

;; The cases that editors in all languages run.

;;; Code:

(require 'vialshoal-support)
(require 'vialshoal-review)

(defconst vialshoal-vectors--folder
  (expand-file-name "../../../share/engine/vectors/"
                    (file-name-directory (or load-file-name buffer-file-name)))
  "The folder that has the cases.")

(defun vialshoal-vectors--file (name)
  "Return what the file of NAME has."
  (let ((coding-system-for-read 'utf-8-unix))
    (with-temp-buffer
      (insert-file-contents (concat vialshoal-vectors--folder name))
      (vialshoal-support--read (buffer-string)))))

(defun vialshoal-vectors--cases ()
  "Return the cases that are of this editor's units."
  (cl-remove-if-not
   (lambda (case) (member (plist-get case :units) '("any" "utf-32")))
   (plist-get (vialshoal-vectors--file "client.json") :cases)))

(defun vialshoal-vectors--edit (changes)
  "Make CHANGES as a user does who has no engine."
  (pcase-dolist (`(,begin ,end ,text) changes)
    (goto-char (1+ begin))
    (delete-region (1+ begin) (1+ end))
    (insert text)))

(defun vialshoal-vectors--step (step)
  "Do STEP."
  (cond
   ((plist-get step :user)
    (vialshoal-vectors--edit (plist-get step :user))
    (vialshoal--post-command))
   ((plist-get step :line)
    (vialshoal--take-line
     (json-serialize (vialshoal-vectors--with-vectors (plist-get step :line)))))
   ((plist-get step :place)
    (pcase-let ((`(,at . ,anchor) (plist-get step :place)))
      (goto-char (1+ at))
      (if anchor
          (push-mark (1+ (car anchor)) t t)
        (setq mark-active nil))))
   ((plist-get step :key)
    (should (eq (plist-get step :waits) (vialshoal--is-behind))))
   ((plist-get step :patience) (vialshoal--caught-up))
   (t (error "This is no step: %S" step))))

(defun vialshoal-vectors--with-vectors (value)
  "Return VALUE with its lists as vectors, so that it can be written."
  (cond ((and (consp value) (keywordp (car value)))
         (cl-loop for (key each) on value by #'cddr
                  nconc (list key (if (memq key '(:types))
                                      (or each :false)
                                    (vialshoal-vectors--with-vectors each)))))
        ((null value) [])
        ((consp value)
         (vconcat (mapcar #'vialshoal-vectors--with-vectors value)))
        (t value)))

(defun vialshoal-vectors--has (name)
  "Return what this editor has by NAME."
  (pcase name
    (:text (vialshoal-support--text))
    (:version vialshoal--version)
    (:made vialshoal--made)
    (:types (plist-get vialshoal--state :types))
    (:words vialshoal--words)
    (:cursors vialshoal--cursors)
    (:cursor (1- (point)))
    (:place (cons (1- (point)) (and mark-active (list (1- (mark))))))))

(defun vialshoal-vectors--joined (edits)
  "Return the changes of EDITS one behind the other.
A user's replacement is two changes here, of which the first deletes."
  (let (found)
    (pcase-dolist (`(,begin ,end ,text) edits)
      (let ((last (car found)))
        (if (and last (equal (nth 2 last) "") (= begin end (car last)))
            (setcar found (list begin (cadr last) text))
          (push (list begin end text) found))))
    (nreverse found)))

(defun vialshoal-vectors--line (line)
  "Return LINE, in which the same changes are spelled the same."
  (if-let ((changes (plist-get line :changes)))
      (plist-put (copy-sequence line) :changes
                 (vialshoal-vectors--joined changes))
    line))

(defun vialshoal-vectors--check (step)
  "Check what STEP says of what was sent and of what is here then."
  (when (plist-member step :sends)
    (should (equal (mapcar #'vialshoal-vectors--line
                           (plist-get step :sends))
                   (mapcar #'vialshoal-vectors--line
                           (vialshoal-support--sent)))))
  (cl-loop for (name value) on (plist-get step :then) by #'cddr
           for has = (vialshoal-vectors--has name)
           ;; More can be said behind words, as where others are kept.
           do (should (equal (list name value)
                             (list name (if (and (eq name :words) has)
                                            (substring has 0 (min (length value)
                                                                  (length has)))
                                          has))))))

(defun vialshoal-vectors--play (case)
  "Play CASE."
  (vialshoal-support-with-note (plist-get case :open)
    (dolist (step (plist-get case :steps))
      (setq vialshoal-support--now (or (plist-get step :at)
                                       vialshoal-support--now))
      (vialshoal-vectors--step step)
      (vialshoal-vectors--check step)
      (unless vialshoal--changes
        (vialshoal-support--check-mirror)))))

(defun vialshoal-vectors--places-of-threads ()
  "Return where the threads are that are shown, by their ids, in their order."
  (sort (mapcar (lambda (mark)
                  (list (plist-get (overlay-get mark 'vialshoal-thread) :id)
                        (1- (overlay-start mark)) (1- (overlay-end mark))))
                vialshoal-review--marks)
        (lambda (one other) (string< (car one) (car other)))))

(defun vialshoal-vectors--remarks-step (step)
  "Do STEP of what is remarked."
  (cond
   ((plist-member step :asks)
    (vialshoal-support--sent)
    (vialshoal-review--in-time (current-buffer))
    (should (equal (mapcar (lambda (line) (list (plist-get line :do)
                                                (plist-get line :version)))
                           (vialshoal-support--sent))
                   (and (plist-get step :asks)
                        (list (list "remarks" (plist-get step :asks)))))))
   ((plist-get step :answer)
    (apply #'vialshoal-support--take :answer "remarks" :id vialshoal--asked
           (append (vialshoal-vectors--with-vectors
                    (plist-get step :answer)) nil)))
   (t (vialshoal-vectors--step step)))
  (when (plist-member step :then)
    (should (equal (vialshoal-vectors--places-of-threads)
                   (cl-loop for (id (begin end)) on (plist-get step :then)
                            by #'cddr
                            collect (list (substring (symbol-name id) 1)
                                          begin end))))))

(ert-deftest vialshoal-vectors-what-is-remarked ()
  (dolist (case (plist-get (vialshoal-vectors--file "remarks.json") :cases))
    (ert-info ((plist-get case :name))
      (vialshoal-support-with-note (plist-get case :open)
        (mapc #'vialshoal-vectors--remarks-step (plist-get case :steps))))))

;; A test for each case, so that each has its name in what is told.
(let ((cases (vialshoal-vectors--cases)))
  (cl-assert (> (length cases) 20))
  (dolist (case cases)
    (let ((name (intern (format "vialshoal-vectors/%s (%s)"
                                (plist-get case :name)
                                (plist-get case :units)))))
      (ert-set-test name (make-ert-test
                          :name name
                          :body (lambda () (vialshoal-vectors--play case)))))))

(provide 'vialshoal-vectors-test)
;;; vialshoal-vectors-test.el ends here
