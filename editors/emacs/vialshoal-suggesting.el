;;; vialshoal-suggesting.el --- Type suggestions into a note  -*- lexical-binding: t; -*-

;;; Commentary:

;; In `vialshoal-suggest-mode' what one types and deletes in a note is no
;; edit: the text stays, and what was to be done to it is suggested.  What is
;; typed in one go is one suggestion; it is shown as such at once, and made
;; after a moment, or where one goes on elsewhere.  All editors join it so:
;; share/engine/vectors has the cases.
;;
;; A command does its work in the buffer as ever.  Before anything else is
;; looked at, the text is what the engine has again, and what differed is part
;; of a suggestion.

;;; Code:

(require 'vialshoal-review)

(vialshoal--defvar vialshoal-suggesting--marks nil
  "Overlays that show what the engine hasn't answered, the last one first.
Each has its new text, and whether it was sent.")
(vialshoal--defvar vialshoal-suggesting--pending nil
  "The one of them to which what is typed belongs, if any.")
(vialshoal--defvar vialshoal-suggesting--made nil
  "The suggestions that were made in the mode, by their ids, the last one first.")
(vialshoal--defvar vialshoal-suggesting--timer nil
  "What sends it after a moment.")
(vialshoal--defvar vialshoal-suggesting--before nil
  "Where point was before the command.")

(vialshoal--defvar vialshoal-suggesting--places nil
  "Where overlays were before the user's change, which takes text from them.
It is a list whose first element is t, while there is such a change.")

(defconst vialshoal-suggesting--pause 4.0
  "After so many seconds in which nothing is typed a suggestion is made.")

(defconst vialshoal-suggesting--last-word
  "\\(?:[^ \t\n\r]+[ \t\n\r]*\\|[ \t\n\r]+\\)\\'"
  "What matches the last word of a text, with the blanks behind it.")

(defconst vialshoal-suggesting--hooks
  '((before-change-functions . vialshoal-suggesting--before-change)
    (pre-command-hook . vialshoal-suggesting--pre-command)
    (post-command-hook . vialshoal-suggesting--post-command))
  "The hooks of the mode.")

(defvar vialshoal-suggest-mode-map
  (let ((map (make-sparse-keymap)))
    (define-key map [remap undo] #'vialshoal-suggesting-undo)
    (define-key map [remap undo-only] #'vialshoal-suggesting-undo)
    (define-key map (kbd "C-/") #'vialshoal-suggesting-undo)
    map)
  "The keys of `vialshoal-suggest-mode'.")

;;;###autoload
(define-minor-mode vialshoal-suggest-mode
  "What is typed and deleted in a note becomes suggestions, and no edits.
\\<vialshoal-suggest-mode-map>\\[vialshoal-suggesting-undo] takes the last \
one back."
  :lighter " Suggesting"
  :keymap vialshoal-suggest-mode-map
  (unless vialshoal--note
    (setq vialshoal-suggest-mode nil)
    (user-error "This buffer is no note"))
  (vialshoal--flush)
  (vialshoal-suggesting--finish)
  (setq vialshoal--diverts (and vialshoal-suggest-mode
                                #'vialshoal-suggesting--take-change))
  (pcase-dolist (`(,hook . ,function) vialshoal-suggesting--hooks)
    (if vialshoal-suggest-mode
        (add-hook hook function nil t)
      (remove-hook hook function t))))
(put 'vialshoal-suggest-mode 'permanent-local t)

(defun vialshoal-suggesting--pre-command ()
  "Keep where point is."
  (setq vialshoal-suggesting--before (point)))
(put 'vialshoal-suggesting--pre-command 'permanent-local-hook t)

(defun vialshoal-suggesting--before-change (&rest _)
  "Keep where overlays are before a change of the user's."
  (unless (or (eq vialshoal--applying (current-buffer))
              vialshoal-suggesting--places)
    (setq vialshoal-suggesting--places
          (cons t (mapcar (lambda (mark)
                            (list mark (overlay-start mark) (overlay-end mark)))
                          (append vialshoal-suggesting--marks
                                  vialshoal-review--marks))))))
(put 'vialshoal-suggesting--before-change 'permanent-local-hook t)

(defun vialshoal-suggesting--post-command ()
  "Make the suggestion from which the user has gone away."
  (vialshoal--flush)
  (when (and vialshoal-suggesting--pending
             (not (<= (overlay-start vialshoal-suggesting--pending) (point)
                      (overlay-end vialshoal-suggesting--pending))))
    (vialshoal-suggesting--finish)))
(put 'vialshoal-suggesting--post-command 'permanent-local-hook t)

;;;; What a command did

(defun vialshoal-suggesting--take-change ()
  "Have what differs from the engine's text be suggested in its place."
  (save-restriction
    (widen)
    (pcase-let* ((old-end (with-current-buffer vialshoal--mirror (point-max)))
                 (`(,beg ,end ,old-end)
                  (vialshoal--differing (point-min) (point-max) old-end))
                 (back (vialshoal-suggesting--back beg end old-end)))
      (unless (= beg end old-end)
        (let ((beg (- beg back)) (end (- end back)) (old-end (- old-end back)))
          (vialshoal-suggesting--put-back beg end old-end)))
      (setq vialshoal-suggesting--places nil))))

(defun vialshoal-suggesting--put-back (beg end old-end)
  "Suggest what is from BEG to END, and put back what was up to OLD-END."
  (let ((new (vialshoal--clean (buffer-substring-no-properties beg end)))
        (old (with-current-buffer vialshoal--mirror
               (buffer-substring beg old-end)))
        (is-forward (eql beg vialshoal-suggesting--before)))
    (vialshoal--by-engine
      (vialshoal--replace beg end old))
    (pcase-dolist (`(,mark ,from ,to) (cdr vialshoal-suggesting--places))
      (when (overlay-buffer mark)
        (move-overlay mark from to)))
    (setq vialshoal-suggesting--places nil)
    (vialshoal--go-to (vialshoal-suggesting--add beg old-end new is-forward))
    (restore-buffer-modified-p (< vialshoal--answered vialshoal--made))
    (vialshoal-suggesting--soon)))

(defun vialshoal-suggesting--back (beg end old-end)
  "Return how far before END a change ended, by where point is.
It is from BEG to END, or, where something went, to OLD-END in the mirror.
Of several equal characters it can't be seen which one is new, or gone."
  (let ((back (- end (point))))
    (if (and (< 0 back) (<= back (- beg (point-min)))
             (or (= beg end) (= beg old-end))
             (with-current-buffer (if (= beg end)
                                      vialshoal--mirror
                                    (current-buffer))
               (let ((end (max end old-end)))
                 (equal (buffer-substring-no-properties (- beg back) beg)
                        (buffer-substring-no-properties (- end back) end)))))
        back
      0)))

(defun vialshoal-suggesting--add (beg end new is-forward)
  "Add to what is suggested that NEW takes the place of what is from BEG to END.
Return where point is then; what is deleted IS-FORWARD has it behind."
  (let* ((typed (not (string-empty-p new)))
         (pending vialshoal-suggesting--pending)
         (from (and pending (overlay-start pending)))
         (to (and pending (overlay-end pending)))
         (before (and pending (overlay-get pending 'vialshoal-new))))
    (cond
     ((not (and pending (<= from end) (<= beg to)))
      (vialshoal-suggesting--finish)
      (vialshoal-suggesting--begin beg end new)
      (if (or typed is-forward) end beg))
     ((not (or typed is-forward (/= end to) (string-empty-p before)))
      (vialshoal-suggesting--untype pending (= (- end beg) 1)))
     (t (vialshoal-suggesting--set pending beg end (concat before new))
        (cond (typed (overlay-end pending))
              (is-forward end)
              (t beg))))))

(defun vialshoal-suggesting--begin (beg end new)
  "Begin to suggest that NEW takes the place of what is from BEG to END."
  (let ((mark (make-overlay beg end)))
    (overlay-put mark 'vialshoal t)
    (overlay-put mark 'face 'vialshoal-suggestion)
    (vialshoal-suggesting--set mark nil nil new)
    (push mark vialshoal-suggesting--marks)
    (setq vialshoal-suggesting--pending mark)))

(defun vialshoal-suggesting--set (mark beg end new)
  "Have MARK be about what is from BEG to END, too, and suggest NEW.
What is nil stays."
  (when beg
    (move-overlay mark (min beg (overlay-start mark))
                  (max end (overlay-end mark))))
  (when new
    (overlay-put mark 'vialshoal-new new)
    (overlay-put mark 'after-string
                 (propertize (vialshoal-review--shown new)
                             'face 'vialshoal-suggested))))

(defun vialshoal-suggesting--untype (mark is-one)
  "Take the last character back of what MARK suggests, if IS-ONE, or else a word.
Return where point is then."
  (let* ((new (overlay-get mark 'vialshoal-new))
         (left (if is-one
                   (vialshoal-suggesting--without-last new)
                 (replace-regexp-in-string vialshoal-suggesting--last-word ""
                                           new)))
         (beg (overlay-start mark))
         (end (overlay-end mark)))
    (if (and (string-empty-p left) (= beg end))
        (vialshoal-suggesting--drop mark)
      (vialshoal-suggesting--set mark nil nil left))
    end))

(defun vialshoal-suggesting--without-last (text)
  "Return TEXT without its last character, and what is drawn over that."
  (let ((end (1- (length text))))
    (while (and (> end 0)
                (memq (get-char-code-property (aref text end)
                                              'general-category)
                      '(Mn Me Mc)))
      (setq end (1- end)))
    (substring text 0 end)))

(defun vialshoal-suggesting--drop (mark)
  "Forget MARK."
  (when (eq mark vialshoal-suggesting--pending)
    (setq vialshoal-suggesting--pending nil))
  (setq vialshoal-suggesting--marks (delq mark vialshoal-suggesting--marks))
  (delete-overlay mark))

;;;; What is sent

(defun vialshoal-suggesting--soon ()
  "Make what is suggested a suggestion, after a moment."
  (when vialshoal-suggesting--timer
    (cancel-timer vialshoal-suggesting--timer))
  (setq vialshoal-suggesting--timer
        (run-at-time vialshoal-suggesting--pause nil
                     #'vialshoal-suggesting--in-time (current-buffer))))

(defun vialshoal-suggesting--in-time (buffer)
  "Send what is suggested in BUFFER."
  (when (buffer-live-p buffer)
    (with-current-buffer buffer
      (setq vialshoal-suggesting--timer nil)
      (vialshoal-suggesting--finish)
      (when vialshoal-suggesting--marks
        (vialshoal-suggesting--soon)))))

(defun vialshoal-suggesting--finish ()
  "Have what is typed from now on be another suggestion, and send this one."
  (setq vialshoal-suggesting--pending nil)
  (when vialshoal--is-open
    (dolist (mark (reverse vialshoal-suggesting--marks))
      (unless (overlay-get mark 'vialshoal-sent)
        (vialshoal-suggesting--send mark)))))

(defun vialshoal-suggesting--send (mark)
  "Send what MARK suggests."
  (overlay-put mark 'vialshoal-sent t)
  (unless (overlay-get mark 'vialshoal-once)
    (overlay-put mark 'vialshoal-once (cl-incf vialshoal--once)))
  (vialshoal--ask (lambda (line) (vialshoal-suggesting--answered mark line))
                  :do "suggest" :version vialshoal--version
                  :begin (1- (overlay-start mark)) :end (1- (overlay-end mark))
                  :new (overlay-get mark 'vialshoal-new)
                  :once (overlay-get mark 'vialshoal-once)))

(defun vialshoal-suggesting--answered (mark line)
  "Show MARK no more, as LINE answers it; the text of one that failed is kept."
  (let ((new (overlay-get mark 'vialshoal-new)))
    (vialshoal-suggesting--drop mark)
    (if (plist-get line :error)
        (vialshoal-review--keep (plist-get line :words) new)
      (push (plist-get line :thread) vialshoal-suggesting--made))))

(defun vialshoal-suggesting-undo ()
  "Take back the last suggestion that was made, or is being made, in the mode."
  (interactive)
  (vialshoal--flush)
  (let ((pending vialshoal-suggesting--pending))
    (cond (pending (vialshoal-suggesting--drop pending))
          (vialshoal-suggesting--marks
           (user-error "What you suggested is being made; wait a moment"))
          (vialshoal-suggesting--made
           (vialshoal--ask #'ignore :do "withdraw"
                           :to (car vialshoal-suggesting--made))
           (pop vialshoal-suggesting--made))
          (t (user-error "You have suggested nothing that could be taken back")))))

(defun vialshoal-suggesting--forget ()
  "Send again what the engine, which isn't there any more, didn't answer.
By its number the next one knows whether that is written."
  (dolist (mark vialshoal-suggesting--marks)
    (overlay-put mark 'vialshoal-sent nil))
  (when vialshoal-suggesting--marks
    (vialshoal-suggesting--soon)))
(add-hook 'vialshoal--forget-hook #'vialshoal-suggesting--forget)

(defun vialshoal-suggesting--close ()
  "Send what is suggested, as the note is closed, and end the mode."
  (vialshoal-suggesting--finish)
  (when vialshoal-suggest-mode
    (vialshoal-suggest-mode -1))
  (mapc #'delete-overlay vialshoal-suggesting--marks)
  (setq vialshoal-suggesting--marks nil
        vialshoal-suggesting--made nil)
  (when vialshoal-suggesting--timer
    (cancel-timer vialshoal-suggesting--timer)))
(add-hook 'vialshoal--close-hook #'vialshoal-suggesting--close)

(provide 'vialshoal-suggesting)
;;; vialshoal-suggesting.el ends here
