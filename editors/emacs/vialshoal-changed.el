;;; vialshoal-changed.el --- What changed in a note  -*- lexical-binding: t; -*-

;;; Commentary:

;; `vialshoal-changed' marks in a note's text what came since its user looked
;; at it, and shows what went where that was.

;;; Code:

(require 'vialshoal-review)

(defface vialshoal-came
  '((((class color) (min-colors 88) (background light)) :background "#cdf2cd")
    (((class color) (min-colors 88) (background dark)) :background "#1f4a1f")
    (((class color)) :background "green" :foreground "black")
    (t :underline t))
  "Text that came since one looked."
  :group 'vialshoal)

(defface vialshoal-went
  '((((class color) (background light)) :foreground "red3" :strike-through t)
    (((class color) (background dark)) :foreground "salmon" :strike-through t)
    (t :strike-through t))
  "Text that went since one looked."
  :group 'vialshoal)

(vialshoal--defvar vialshoal-changed--marks nil
  "The overlays that show what changed, in their order; each has its words.")
(vialshoal--defvar vialshoal-changed--timer nil
  "What asks again, where the text that is here was another one.")

(defvar vialshoal-changed-mode-map
  (let ((map (make-sparse-keymap)))
    (define-key map "n" #'vialshoal-changed-next)
    (define-key map "p" #'vialshoal-changed-previous)
    (define-key map "q" #'vialshoal-changed-mode)
    map)
  "The keys while it is shown what changed.")

(define-minor-mode vialshoal-changed-mode
  "What shows what changed in a note; `vialshoal-changed' turns it on.
\\{vialshoal-changed-mode-map}"
  :lighter " Changed"
  :keymap vialshoal-changed-mode-map
  (unless vialshoal-changed-mode
    (vialshoal-changed--show nil nil)))

;;;###autoload
(defun vialshoal-changed (&optional hours)
  "Mark what came since you looked at this note, and show what went.
With a numeric prefix argument, since so many HOURS ago."
  (interactive "P")
  (with-current-buffer (vialshoal-review--here)
    (vialshoal-changed--ask
     (if hours
         (list :time (max 0 (- (truncate (vialshoal--now))
                               (* 3600 (prefix-numeric-value hours)))))
       "looked"))))

(defun vialshoal-changed--ask (since)
  "Ask what changed SINCE, as the engine is asked."
  (vialshoal--ask (lambda (line) (vialshoal-changed--answered line since))
                  :do "changed" :version vialshoal--version :since since))

(defun vialshoal-changed--answered (line since)
  "Take in LINE, which has what changed SINCE, as was asked."
  (cond ((plist-get line :error))
        ((vialshoal-review--is-current line)
         (vialshoal-changed--show (plist-get line :came)
                                  (plist-get line :went))
         (vialshoal-changed--begin (plist-get line :since)))
        (t (vialshoal-changed--again (current-buffer) since))))

(defun vialshoal-changed--again (note since)
  "Ask what changed in NOTE SINCE, once its user isn't typing."
  (when (buffer-live-p note)
    (with-current-buffer note
      (when vialshoal-changed--timer
        (cancel-timer vialshoal-changed--timer))
      (setq vialshoal-changed--timer nil)
      (cond ((not vialshoal--is-open))
            ((vialshoal-review--is-quiet) (vialshoal-changed--ask since))
            (t (setq vialshoal-changed--timer
                     (run-at-time vialshoal-review--pause nil
                                  #'vialshoal-changed--again note since)))))))

(defun vialshoal-changed--begin (since)
  "Say how much changed SINCE, and have the keys that go through it."
  (let ((count (length vialshoal-changed--marks))
        ;; Who never looked did so at 0.
        (time (vialshoal-review--time (list :time (unless (eql since 0)
                                                    since)))))
    (if (zerop count)
        (progn (vialshoal-changed-mode -1)
               (vialshoal-review--tell
                (concat "Nothing has changed since you looked" time)))
      (vialshoal-changed-mode)
      (vialshoal-review--tell
       (format "%s changed since you looked%s; %s"
               (if (= count 1) "1 stretch" (format "%s stretches" count)) time
               (substitute-command-keys
                (concat "\\<vialshoal-changed-mode-map>"
                        "\\[vialshoal-changed-next] and "
                        "\\[vialshoal-changed-previous] go there, "
                        "\\[vialshoal-changed-mode] ends it")))))))

(defun vialshoal-changed--show (came went)
  "Show what CAME and what WENT, and no more what was shown."
  (mapc #'delete-overlay vialshoal-changed--marks)
  (setq vialshoal-changed--marks
        (save-restriction
          (widen)
          (cl-sort (append (mapcar #'vialshoal-changed--came came)
                           (mapcar #'vialshoal-changed--went went))
                   #'< :key #'overlay-start))))

(defun vialshoal-changed--mark (beg end words)
  "Return an overlay from BEG to END, of which WORDS are said."
  (let ((mark (make-overlay (1+ beg) (1+ end) nil (< beg end))))
    (overlay-put mark 'vialshoal t)
    (overlay-put mark 'vialshoal-words words)
    (overlay-put mark 'help-echo (vialshoal--in-help words))
    mark))

(defun vialshoal-changed--whose (stretch)
  "Return of whom STRETCH is, and by whom it came or went, where that differs."
  (let ((by (plist-get stretch :by)))
    (concat "of " (vialshoal--author stretch)
            (unless (equal (plist-get by :site) (plist-get stretch :site))
              (concat ", by " (vialshoal--author by))))))

(defun vialshoal-changed--came (stretch)
  "Return an overlay for STRETCH, which came."
  (let ((mark (vialshoal-changed--mark
               (plist-get stretch :begin) (plist-get stretch :end)
               (format "Came, %s" (vialshoal-changed--whose stretch)))))
    (overlay-put mark 'face 'vialshoal-came)
    mark))

(defun vialshoal-changed--went (stretch)
  "Return an overlay for STRETCH, which went."
  (let* ((text (vialshoal-review--shown (plist-get stretch :text)))
         (at (plist-get stretch :at))
         (mark (vialshoal-changed--mark
                at at (format "Went, %s: %s" (vialshoal-changed--whose stretch)
                              text))))
    (overlay-put mark 'before-string
                 (propertize (vialshoal-review--shown
                              text vialshoal-review--most-shown)
                             'face 'vialshoal-went
                             'help-echo (overlay-get mark 'help-echo)))
    mark))

(defun vialshoal-changed-next (&optional count)
  "Go to the next stretch that changed, or COUNT of them on.
Behind the last one comes the first."
  (interactive "p")
  (let ((mark (vialshoal-review--further vialshoal-changed--marks (or count 1)
                                         "Nothing has changed")))
    (goto-char (overlay-start mark))
    (vialshoal-review--tell (overlay-get mark 'vialshoal-words))))

(defun vialshoal-changed-previous (&optional count)
  "Go to the previous stretch that changed, or COUNT of them back."
  (interactive "p")
  (vialshoal-changed-next (- (or count 1))))

(defun vialshoal-changed--forget ()
  "Show no more what changed, since the engine isn't there any more."
  (when vialshoal-changed--marks
    (vialshoal-changed-mode -1)))
(add-hook 'vialshoal--forget-hook #'vialshoal-changed--forget)

(provide 'vialshoal-changed)
;;; vialshoal-changed.el ends here
