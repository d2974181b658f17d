;;; vialshoal-again.el --- Notes whose engine ended  -*- lexical-binding: t; -*-

;;; Commentary:

;; A note's engine can end at any moment, for example because it was killed.
;; Its user types on in the same buffer.  Each edit gets the next number and
;; is kept.  The engine is started again, and is told in its request `open'
;; which edits this editor kept.  It answers which of them it has, and
;; carries the others over to the text of now; docs/ENGINE.md has the lines.
;;
;; An edit that the note doesn't take keeps its words, whatever the reason.
;; `vialshoal-put-back' types them again.

;;; Code:

(require 'vialshoal)

(defvar vialshoal-review--unanswered)

(vialshoal--defvar vialshoal-again--words nil
  "The words that the note didn't take, a string; or nil.")
(vialshoal--defvar vialshoal-again--place nil
  "A marker where they were typed.")
(vialshoal--defvar vialshoal-again--timer nil
  "What starts the engine again.")
(vialshoal--defvar vialshoal-again--tries 0
  "How often the engine was started again since one was steady.")

(defconst vialshoal-again--first-pause 0.2
  "The seconds before an engine is started that ended soon after its start.
They are doubled with each try.")

(defconst vialshoal-again--most-pause 5.0
  "The most seconds between two tries.")

(defconst vialshoal-again--patience 5
  "Who closes a note waits so many seconds at most for its engine.")

(defconst vialshoal-again--not-repeated
  '("open" "remarks" "remark" "suggest" "reply" "revise")
  "The requests that the user has not to repeat if the engine ends.")

(defconst vialshoal-again--most-shown 200
  "So many characters are shown of words that the note didn't take.")

;;;; The engine ended

(defun vialshoal-again--ended (words)
  "Have the user type on, and start the engine again, which ended with WORDS."
  (let ((was-asked (vialshoal-again--is-asked)))
    (when (and vialshoal--is-open
               (> (vialshoal--now)
                  (+ vialshoal--begun vialshoal--steady-seconds)))
      (setq vialshoal-again--tries 0))
    (vialshoal--say-once
     (string-trim
      (concat "The engine ended and is started again.  Nothing is lost; type on.  "
              (when was-asked
                "Look whether your last command was done, and else repeat it.  ")
              words)))
    (setq vialshoal--is-away t)
    (vialshoal--forget))
  (vialshoal-again--start-later))

(defun vialshoal-again--is-asked ()
  "Say whether something that the user asked for isn't answered."
  (and vialshoal--is-open
       (cl-some (lambda (waiting)
                  (not (member (nth 2 waiting)
                               vialshoal-again--not-repeated)))
                vialshoal--waiting)))

(defun vialshoal-again--pause ()
  "Return the seconds to wait before the engine is started again."
  (if (zerop vialshoal-again--tries)
      0
    (min vialshoal-again--most-pause
         (* vialshoal-again--first-pause
            (expt 2 (min 10 (1- vialshoal-again--tries)))))))

(defun vialshoal-again--start-later ()
  "Start the engine again, after a pause that grows with each try."
  (unless vialshoal-again--timer
    (setq vialshoal-again--timer
          (run-at-time (vialshoal-again--pause) nil
                       #'vialshoal-again--start (current-buffer)))
    (cl-incf vialshoal-again--tries)))

(defun vialshoal-again--start (buffer)
  "Start the engine of BUFFER again, unless it has one."
  (when (buffer-live-p buffer)
    (with-current-buffer buffer
      (setq vialshoal-again--timer nil)
      (when (and vialshoal--is-away
                 (not (process-live-p vialshoal--process)))
        (condition-case why
            (vialshoal--start)
          (error (vialshoal--say-once (error-message-string why))
                 (vialshoal-again--start-later)))))))

;;;; The next engine opens the note

(defun vialshoal-again--to-carry-over ()
  "Return what a request `open' has besides to go on with the text that is here.
Nothing, if there is no such text, or a change of it was broken off."
  (when vialshoal--is-away
    (vialshoal--flush)
    (unless vialshoal--is-lost
      (list :again
            (list :version (car vialshoal--step)
                  :edits (cdr vialshoal--step)
                  :hash (vialshoal-again--hash)
                  :made (vconcat
                         (mapcar (lambda (edit)
                                   (vialshoal--edit-fields (nth 1 edit)
                                                           (nth 2 edit)))
                                 (vialshoal-again--after
                                  (cdr vialshoal--step)))))))))

(defun vialshoal-again--hash ()
  "Return the hash of the text with all edits that have a number."
  (with-current-buffer vialshoal--mirror
    (secure-hash 'sha256 (encode-coding-string
                          (buffer-substring-no-properties (point-min) (point-max))
                          'utf-8-unix))))

(defun vialshoal-again--after (number &optional last)
  "Return the edits behind NUMBER, up to LAST if that is given, in their order."
  (reverse (cl-remove-if-not (lambda (edit)
                               (and (> (car edit) number)
                                    (or (not last) (<= (car edit) last))))
                             vialshoal--edits)))

(defun vialshoal-again--opened (line)
  "Go on with LINE, by which another engine has the note open."
  (if (plist-member line :text)
      (vialshoal-again--is-not-carried-over line)
    (vialshoal-again--is-carried-over line))
  (setq vialshoal--place nil)
  (run-hook-with-args 'vialshoal--opened-again-hook
                      (not (plist-member line :text)))
  (vialshoal--tell-place)
  (force-mode-line-update))

(defun vialshoal-again--is-carried-over (line)
  "Keep the text; LINE has the number of the last edit that is carried over."
  (setq vialshoal--is-away nil
        vialshoal--is-open t
        vialshoal--version (plist-get line :version)
        vialshoal--answered (plist-get line :edits)
        vialshoal--sent vialshoal--answered
        vialshoal--step (cons vialshoal--version vialshoal--answered))
  (vialshoal--forget-edits)
  (when (= vialshoal--answered vialshoal--made)
    (restore-buffer-modified-p nil))
  (vialshoal--say "The note is open again.  All that you typed is kept")
  (vialshoal--send-edits))

(defun vialshoal-again--is-not-carried-over (line)
  "Show the text of LINE, and keep the words of the edits that it lacks."
  (let* ((has (max vialshoal--answered (or (plist-get line :has) 0)))
         (edits (vialshoal-again--after has))
         (place (and edits (marker-position (nth 3 (car edits))))))
    (vialshoal--fill line)
    (vialshoal-again--keep
     "The note is open again, and what you typed last couldn't be carried over."
     (vialshoal-again--changes edits) place)))

;;;; Words that the note didn't take

(defun vialshoal-again--changes (edits)
  "Return all that EDITS did to the text, one change behind the other."
  (apply #'append (mapcar #'cadr edits)))

(defun vialshoal-again--refused (why number)
  "Keep the words of the edits up to NUMBER, which were refused for WHY."
  (let ((edits (vialshoal-again--after vialshoal--answered number)))
    (vialshoal-again--keep why (vialshoal-again--changes edits)
                           (and edits (marker-position (nth 3 (car edits)))))))

(defun vialshoal-again--put-by (edit)
  "Return the text that EDIT, a list, put and that its later parts left.
What was put at several places stands in lines, in the order of these."
  (let (parts)
    (pcase-dolist (`[,begin ,end ,put] edit)
      (let* ((ends (lambda (part) (+ (car part) (length (cdr part)))))
             (before (cl-remove-if-not
                      (lambda (part) (< (funcall ends part) begin)) parts))
             (after (cl-remove-if-not (lambda (part) (> (car part) end)) parts))
             (met (cl-set-difference parts (append before after) :test #'eq))
             (met (sort met (lambda (one other) (< (car one) (car other)))))
             (first (car met))
             (last (car (last met)))
             (grows (- (length put) (- end begin)))
             (text (concat
                    (and first (substring (cdr first) 0
                                          (max 0 (min (- begin (car first))
                                                      (length (cdr first))))))
                    put
                    (and last (substring (cdr last)
                                         (min (max 0 (- end (car last)))
                                              (length (cdr last))))))))
        (setq parts
              (append before
                      (unless (string-empty-p text)
                        (list (cons (min begin (or (car first) begin)) text)))
                      (mapcar (lambda (part)
                                (cons (+ (car part) grows) (cdr part)))
                              after)))))
    (mapconcat #'cdr parts "\n")))

(defun vialshoal-again--keep (why edit place)
  "Keep the words of EDIT, a list that the note didn't take, and tell WHY.
They were typed at PLACE.  If words are kept that were typed elsewhere,
these follow them in a line of their own."
  (let ((put (vialshoal-again--put-by edit))
        (kept vialshoal-again--words))
    (unless (string-empty-p put)
      (unless kept
        (setq vialshoal-again--place
              (copy-marker (min (or place (point-max)) (1+ (buffer-size))))))
      (setq vialshoal-again--words
            (concat kept
                    (and kept (not (vialshoal-again--is-near place kept)) "\n")
                    put)))
    (vialshoal--say (concat why
                            (unless (string-empty-p put)
                              (vialshoal-again--kept-words))
                            (vialshoal--beside-words)))))

(defun vialshoal-again--is-near (place words)
  "Say whether PLACE is where WORDS are kept for, or behind them."
  (let ((at (marker-position vialshoal-again--place)))
    (or (not place) (= place at) (= place (+ at (length words))))))

(defun vialshoal-again--kept-words ()
  "Return which words are kept, and what puts them back."
  (format "  What you typed is kept, and isn't in the note: \"%s\".  %s"
          (vialshoal--shown-name vialshoal-again--words
                                 vialshoal-again--most-shown)
          (substring-no-properties
           (substitute-command-keys "\\[vialshoal-put-back] puts it back."))))

;;;###autoload
(defun vialshoal-put-back ()
  "Type the words again that you typed and the note didn't take.
They come in where they were typed."
  (interactive)
  (vialshoal--in-note
    (unless vialshoal-again--words
      (user-error "Nothing is kept that could be put back"))
    (barf-if-buffer-read-only)
    (let ((words vialshoal-again--words)
          (place (marker-position vialshoal-again--place)))
      (set-marker vialshoal-again--place nil)
      (setq vialshoal-again--words nil)
      (save-restriction
        (widen)
        (vialshoal--go-to (min place (point-max)))
        (insert words)))
    (vialshoal--flush)))

;;;; A note is closed while there is no engine

(defun vialshoal-again--wait ()
  "Wait a moment until the engine has all, or the next one if it ended."
  (let ((end (+ (vialshoal--now) vialshoal-again--patience)))
    ;; A process may have ended that hasn't been heard of.
    (while (and (< vialshoal--answered vialshoal--made)
                (or vialshoal--is-away vialshoal--process)
                (< (vialshoal--now) end))
      (vialshoal-again--start (current-buffer))
      (accept-process-output nil 0.05))))

(defun vialshoal-again--has-all ()
  "Say whether an engine has all that was typed here, or will have it."
  (or (not (vialshoal--takes-keys))
      (progn (vialshoal--flush)
             (vialshoal-again--wait)
             (or (= vialshoal--answered vialshoal--made)
                 (not vialshoal--is-away)))))

(defun vialshoal-again--may-close ()
  "Ask whether the note may be closed, if something would be lost."
  (or noninteractive
      (not vialshoal--note)
      (buffer-base-buffer)
      (and (or (vialshoal-again--has-all)
               (and (yes-or-no-p
                     (format "No engine has what you typed last in %s.  Lose it? "
                             vialshoal--note))
                    ;; Else it would be waited for once more.
                    (progn (setq vialshoal--is-away nil) t)))
           (or (not vialshoal-again--words)
               (yes-or-no-p
                (format "Words that %s didn't take can still be put back.  Lose them? "
                        vialshoal--note))))))
(put 'vialshoal-again--may-close 'permanent-local-hook t)

(defun vialshoal-again--may-close-all ()
  "Ask whether all notes may be closed."
  (cl-every (lambda (buffer)
              (with-current-buffer buffer
                (vialshoal-again--may-close)))
            (buffer-list)))

(defun vialshoal-again--close ()
  "Have the engine have all that was typed, as the note is closed, and forget it.
If there is none, the text is kept in another buffer."
  (unless (vialshoal-again--has-all)
    (vialshoal--keep-beside))
  (when vialshoal-again--is-ending
    (vialshoal-again--leave))
  (when vialshoal-again--timer
    (cancel-timer vialshoal-again--timer))
  (setq vialshoal-again--timer nil
        vialshoal-again--words nil
        vialshoal-again--tries 0
        vialshoal--is-away nil))

;;;; Emacs ends, perhaps by a signal, while there is no engine

(defun vialshoal-again--not-in-note ()
  "Return the words that aren't in the note, as far as anybody knows."
  (vialshoal--in-note
    (let ((edits (vialshoal-again--after vialshoal--answered)))
      (string-join
       (cl-remove-if #'string-blank-p
                     (append (list (or vialshoal-again--words "")
                                   (vialshoal-again--put-by
                                    (vialshoal-again--changes edits)))
                             (mapcar #'car (reverse vialshoal-review--unanswered))))
       "\n\n"))))

(defun vialshoal-again--leave ()
  "Write the words that aren't in the note into a file of their own."
  (let ((words (vialshoal-again--not-in-note))
        (name (expand-file-name (format-time-string
                                 (concat vialshoal--note "-%Y%m%d-%H%M%S.txt"))
                                (vialshoal--folder "left"))))
    (unless (string-empty-p words)
      (with-file-modes #o700
        (make-directory (file-name-directory name) t))
      (with-file-modes #o600
        (let ((coding-system-for-write 'utf-8-unix))
          (write-region words nil name nil 'silent nil))))))

(defun vialshoal-again--tell-left ()
  "Say which files have words of this note that an Emacs left as it ended."
  (let* ((folder (vialshoal--folder "left"))
         (files (and (file-directory-p folder)
                     (directory-files
                      folder t (concat "\\`" (regexp-quote vialshoal--note)
                                       "-[0-9]\\{8\\}-[0-9]\\{6\\}\\.txt\\'")))))
    (when files
      (vialshoal--say
       (format "Emacs ended before it could put all of your words into %s.  They are in %s; delete the file once you have them"
               vialshoal--note (string-join files ", "))))))

(provide 'vialshoal-again)
;;; vialshoal-again.el ends here
