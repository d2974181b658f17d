;;; vialshoal-remarks.el --- Lists a note's remarks  -*- lexical-binding: t; -*-

;;; Commentary:

;; `vialshoal-remarks' lists a note's remarks and suggestions, with keys for
;; what can be done with them.

;;; Code:

(require 'vialshoal-review)
(require 'tabulated-list)

(defvar-local vialshoal-remarks--threads nil
  "All threads of the note, in their order.")
(defvar-local vialshoal-remarks--shows-all nil
  "Whether those are listed, too, that aren't open.")
(defvar-local vialshoal-remarks--author nil
  "Whose threads are listed; nil for everybody's.")

(defvar vialshoal-remarks-mode-map
  (let ((map (make-sparse-keymap)))
    (define-key map (kbd "RET") #'vialshoal-remarks-visit)
    (define-key map (kbd "SPC") #'vialshoal-show-remark)
    (define-key map "t" #'vialshoal-remarks-toggle)
    (define-key map "/" #'vialshoal-remarks-of)
    (define-key map "r" #'vialshoal-reply)
    (define-key map "v" #'vialshoal-resolve)
    (define-key map "o" #'vialshoal-reopen)
    (define-key map "a" #'vialshoal-accept)
    (define-key map "x" #'vialshoal-reject)
    (define-key map "e" #'vialshoal-revise)
    (define-key map "w" #'vialshoal-withdraw)
    map)
  "The keys of `vialshoal-remarks-mode'.")

(define-derived-mode vialshoal-remarks-mode tabulated-list-mode "Note-Remarks"
  "Lists a note's remarks and suggestions.
\\{vialshoal-remarks-mode-map}"
  (setq-local local-enable-local-variables nil)
  (setq-local revert-buffer-function #'vialshoal-remarks--revert)
  (setq tabulated-list-format [("State" 9 t) ("By" 15 t) ("On" 25 nil)
                               ("Says" 0 nil)]
        tabulated-list-padding 1)
  (tabulated-list-init-header))

;;;###autoload
(defun vialshoal-remarks (&optional all)
  "List the note's open remarks and suggestions, or ALL with a prefix argument."
  (interactive "P")
  (pop-to-buffer (vialshoal-remarks--buffer (vialshoal-review--here)))
  (setq vialshoal-remarks--shows-all (and all t))
  (vialshoal-remarks--revert))

(defun vialshoal-remarks--buffer (note)
  "Return the buffer that lists the remarks of NOTE."
  (let ((name (format "*remarks of %s*"
                      (buffer-local-value 'vialshoal--note note))))
    (with-current-buffer (get-buffer-create name)
      (unless (derived-mode-p 'vialshoal-remarks-mode)
        (vialshoal-remarks-mode))
      (setq vialshoal-review--note note)
      (current-buffer))))

(defun vialshoal-remarks--show-anew ()
  "Ask for what the list of this note's remarks has, if there is one."
  (let ((note (current-buffer))
        (list (get-buffer (format "*remarks of %s*" vialshoal--note))))
    (when list
      (with-current-buffer list
        (when (eq vialshoal-review--note note)
          (vialshoal-remarks--revert))))))
(add-hook 'vialshoal-review--shown-hook #'vialshoal-remarks--show-anew)

(defun vialshoal-remarks--revert (&rest _)
  "Ask for the threads of the list anew."
  (vialshoal-remarks--ask (current-buffer) nil))

(defun vialshoal-remarks--ask (list known)
  "Ask for the threads that LIST is to have behind KNOWN ones."
  (with-current-buffer list
    (vialshoal-review--ask
     (lambda (line)
       (unless (or (plist-get line :error) (not (buffer-live-p list)))
         (let* ((more (plist-get line :threads))
                (all (append known more)))
           (if (and more (< (length all) (plist-get line :of)))
               (vialshoal-remarks--ask list all)
             (with-current-buffer list
               (setq vialshoal-remarks--threads all)
               (vialshoal-remarks--show))))))
     :do "remarks" :from (length known)
     :version (buffer-local-value 'vialshoal--version
                                  (vialshoal-review--here)))))

(defun vialshoal-remarks--show ()
  "List those threads that are to be shown."
  (setq mode-line-process
        (vialshoal--in-mode-line
         (concat (if vialshoal-remarks--shows-all " all" " open")
                 (and vialshoal-remarks--author
                      (concat " of " vialshoal-remarks--author))))
        tabulated-list-entries
        (mapcar #'vialshoal-remarks--entry
                (cl-remove-if-not #'vialshoal-remarks--is-shown
                                  vialshoal-remarks--threads)))
  (tabulated-list-print t)
  (force-mode-line-update))

(defun vialshoal-remarks--is-shown (thread)
  "Say whether THREAD is to be listed."
  (and (or vialshoal-remarks--shows-all (vialshoal-review--is-open thread))
       (or (null vialshoal-remarks--author)
           (equal vialshoal-remarks--author (vialshoal--author thread)))))

(defun vialshoal-remarks--entry (thread)
  "Return the line of the list for THREAD."
  (let ((help (vialshoal-review--help thread))
        (replies (length (plist-get thread :replies))))
    (list (plist-get thread :id)
          (vconcat
           (mapcar
            (lambda (words) (propertize words 'help-echo help))
            (list (vialshoal-review--in-line (plist-get thread :state) 9)
                  (vialshoal-review--in-line (vialshoal--author thread) 40)
                  (vialshoal-review--in-line (plist-get thread :text) 40)
                  (concat
                   (and (vialshoal-review--is-suggestion thread)
                        (format "-> %s  " (vialshoal-review--in-line
                                           (plist-get thread :new) 40)))
                   (vialshoal-review--in-line (plist-get thread :body) 100)
                   (and (> replies 0) (format "  (%d)" replies)))))))))

(defun vialshoal-remarks--thread ()
  "Return the thread of the line of point, or nil."
  (let ((id (tabulated-list-get-id)))
    (and id (cl-find id vialshoal-remarks--threads :test #'equal
                     :key (lambda (thread) (plist-get thread :id))))))

(defun vialshoal-remarks-toggle ()
  "List those that aren't open, too, or no more."
  (interactive)
  (setq vialshoal-remarks--shows-all (not vialshoal-remarks--shows-all))
  (vialshoal-remarks--show))

(defun vialshoal-remarks-of (author)
  "List only what AUTHOR made; where that is empty, what everybody did."
  (interactive
   (list (completing-read "Of whom (empty for all): "
                          (delete-dups (mapcar #'vialshoal--author
                                               vialshoal-remarks--threads)))))
  (setq vialshoal-remarks--author (and (not (string-empty-p author)) author))
  (vialshoal-remarks--show))

(defun vialshoal-remarks-visit ()
  "Go to the text of the line's remark."
  (interactive)
  (let* ((thread (or (vialshoal-remarks--thread)
                     (user-error "No remark is here")))
         (note (vialshoal-review--here))
         (mark (vialshoal-remarks--mark note thread)))
    (unless (or mark (plist-get thread :begin))
      (user-error "Its text isn't here"))
    (pop-to-buffer note)
    (if mark
        (vialshoal-review--visit mark)
      (goto-char (min (point-max) (1+ (plist-get thread :begin)))))))

(defun vialshoal-remarks--mark (note thread)
  "Return the overlay of NOTE for THREAD, or nil."
  (cl-find (plist-get thread :id)
           (buffer-local-value 'vialshoal-review--marks note)
           :test #'equal
           :key (lambda (mark)
                  (plist-get (overlay-get mark 'vialshoal-thread) :id))))

(provide 'vialshoal-remarks)
;;; vialshoal-remarks.el ends here
