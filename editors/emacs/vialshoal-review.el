;;; vialshoal-review.el --- Remarks and suggestions in a note  -*- lexical-binding: t; -*-

;;; Commentary:

;; Remarks on a note's text, and suggestions of another one, are shown at
;; what they are about, each with its author and its replies by the mouse or
;; `vialshoal-show-remark'.  `vialshoal-remark' and `vialshoal-suggest' make
;; them, of the region or at point; other commands work on the one at point,
;; or on that of the line in the list that `vialshoal-remarks' shows.
;;
;; What they say comes from other people: it is shown, and never obeyed.

;;; Code:

(require 'vialshoal)

(declare-function vialshoal-remarks--thread "vialshoal-remarks")

(defface vialshoal-remark
  '((((class color) (min-colors 88) (background light)) :background "#fff0a8")
    (((class color) (min-colors 88) (background dark)) :background "#5a4a00")
    (((class color)) :background "yellow" :foreground "black")
    (t :underline t))
  "Text on which somebody remarks."
  :group 'vialshoal)

(defface vialshoal-suggestion
  '((((class color) (background light)) :foreground "red3" :strike-through t)
    (((class color) (background dark)) :foreground "salmon" :strike-through t)
    (t :strike-through t))
  "Text for which somebody suggests another one."
  :group 'vialshoal)

(defface vialshoal-suggested
  '((((class color) (background light)) :foreground "green4" :underline t)
    (((class color) (background dark)) :foreground "light green" :underline t)
    (t :underline t))
  "Text that somebody suggests."
  :group 'vialshoal)

(vialshoal--defvar vialshoal-review--marks nil
  "The overlays that show the threads of this note; each has its thread.")
(vialshoal--defvar vialshoal-review--timer nil
  "What asks for the threads soon.")
(vialshoal--defvar vialshoal-review--asked 0
  "When they were asked for last.")
(vialshoal--defvar vialshoal-review--is-asking nil
  "Whether they were asked for and aren't here.")
(vialshoal--defvar vialshoal-review--unanswered nil
  "What the user wrote and the engine hasn't answered, the last first.
Each is a text, and the request that says it, in which places are markers.")
(vialshoal--defvar vialshoal-review--is-due nil
  "Whether what is shown of them may be old.")

(defvar vialshoal-review--shown-hook nil
  "What is called where threads are shown anew.")

(defvar-local vialshoal-review--note nil
  "The buffer of the note of which this buffer shows something.")

(defconst vialshoal-review--pause 0.3
  "Threads are asked for again after so many seconds at the earliest.")

(defconst vialshoal-review--most-told 1000
  "So many characters are shown in the echo area.")

(defconst vialshoal-review--most-shown 200
  "So many characters of a suggested text are shown within the note's.")

;;;; What others say

(defconst vialshoal-review--control
  "[\0-\x08\x0b-\x1f\x7f-\x9f\u2028-\u202e\u2066-\u2069]"
  "What no words have as it is: controls, and what turns their direction.
A tab and a line end are space.")

(defun vialshoal-review--shown (words &optional most)
  "Return WORDS as they may be shown, with MOST characters if that is given."
  (let ((words (or words "")))
    (when (and most (> (length words) most))
      (setq words (concat (substring words 0 most) "..")))
    (replace-regexp-in-string vialshoal-review--control "\ufffd" words)))

(defun vialshoal-review--in-line (words most)
  "Return WORDS as they may be shown in a line, with MOST characters."
  (bidi-string-mark-left-to-right
   (vialshoal-review--shown
    (string-trim (replace-regexp-in-string "[ \t\n]+" " " (or words "")))
    most)))

(defun vialshoal-review--time (record)
  "Return when RECORD was made, as its author said, or nothing."
  (let ((time (plist-get record :time)))
    (or (and (numberp time)
             (ignore-errors (format-time-string ", %Y-%m-%d %H:%M" time)))
        "")))

(defun vialshoal-review--said (record)
  "Return who made RECORD, a thread or a reply, when, and its words."
  (concat (vialshoal--author record)
          (vialshoal-review--time record)
          (and (plist-get record :revised) " (revised)")
          (cond ((vialshoal-review--is-taken record) ": taken back")
                ((string-empty-p (or (plist-get record :body) "")) "")
                (t (concat ": " (vialshoal-review--shown
                                 (plist-get record :body)))))))

(defun vialshoal-review--tell (words)
  "Show WORDS in the echo area, which has no room for many."
  (message "%s" (if (> (length words) vialshoal-review--most-told)
                    (concat (substring words 0 vialshoal-review--most-told)
                            "..")
                  words)))

(defun vialshoal-review--is-taken (record)
  "Say whether RECORD, a thread or a reply, was taken back."
  (or (plist-get record :taken)
      (equal (plist-get record :state) "taken")))

(defun vialshoal-review--is-open (thread)
  "Say whether THREAD is open."
  (equal (plist-get thread :state) "open"))

(defun vialshoal-review--is-suggestion (thread)
  "Say whether THREAD is a suggestion."
  (equal (plist-get thread :kind) "suggestion"))

(defun vialshoal-review--about (thread)
  "Return what THREAD is about, and suggests, in words."
  (let ((text (vialshoal-review--shown (plist-get thread :text)))
        (new (vialshoal-review--shown (plist-get thread :new))))
    (cond ((not (vialshoal-review--is-suggestion thread))
           (if (string-empty-p text) "Here" (format "On \"%s\"" text)))
          ((string-empty-p text) (format "Suggests to add \"%s\"" new))
          ((string-empty-p new) (format "Suggests to delete \"%s\"" text))
          (t (format "Suggests \"%s\" for \"%s\"" new text)))))

(defun vialshoal-review--as-text (thread)
  "Return all words of THREAD."
  (concat
   (vialshoal-review--about thread)
   (cond ((plist-get thread :elsewhere) " (its text isn't here)")
         ((plist-get thread :gone) " (deleted since)")
         ((plist-get thread :changed) " (changed since)"))
   (unless (vialshoal-review--is-open thread)
     (format " (%s)" (vialshoal-review--shown (plist-get thread :state) 10)))
   "\n" (vialshoal-review--said thread)
   (mapconcat (lambda (reply) (concat "\n  " (vialshoal-review--said reply)))
              (plist-get thread :replies) "")))

;;;; What is shown in the text

(defun vialshoal-review--noticed ()
  "Show the threads anew, since the engine has told that they changed."
  (setq vialshoal-review--is-due t)
  (vialshoal-review--soon))

(defun vialshoal-review--soon ()
  "Ask for the threads soon."
  (unless vialshoal-review--timer
    (setq vialshoal-review--timer
          (run-at-time (max 0 (- (+ vialshoal-review--asked
                                    vialshoal-review--pause)
                                 (vialshoal--now)))
                       nil #'vialshoal-review--in-time (current-buffer)))))

(defun vialshoal-review--in-time (buffer)
  "Ask for the threads of BUFFER, unless its user is typing."
  (when (buffer-live-p buffer)
    (with-current-buffer buffer
      (setq vialshoal-review--timer nil)
      (when (and vialshoal--is-open vialshoal-review--is-due)
        (setq vialshoal-review--asked (vialshoal--now))
        (if (or vialshoal-review--is-asking (not (vialshoal-review--is-quiet)))
            (vialshoal-review--soon)
          (vialshoal-review--ask-for-threads))))))

(defun vialshoal-review--is-quiet ()
  "Say whether all that was typed is answered, with no command at work."
  (and (null vialshoal--changes)
       (= vialshoal--made vialshoal--answered)
       (zerop vialshoal--holds)))

(defun vialshoal-review--ask-for-threads (&rest more)
  "Ask for the threads, with MORE of the request on which of them."
  (setq vialshoal-review--is-due nil
        vialshoal-review--is-asking t)
  (apply #'vialshoal--ask
         (lambda (line) (vialshoal-review--answered line more))
         :do "remarks" :version vialshoal--version more))

(defun vialshoal-review--answered (line more)
  "Take in LINE, which has the threads; MORE said which were asked for."
  (setq vialshoal-review--is-asking nil)
  (cond ((plist-get line :error))
        ((not (vialshoal-review--is-current line))
         (vialshoal-review--noticed))
        ;; Where there are too many, those that are open are shown.
        ((and (not more) (> (or (plist-get line :of) 0)
                            (length (plist-get line :threads))))
         (vialshoal-review--ask-for-threads :open t))
        (t (vialshoal-review--show (plist-get line :threads))
           (run-hooks 'vialshoal-review--shown-hook))))

(defun vialshoal-review--is-current (line)
  "Say whether places in the answer LINE are places in the text that is here."
  (and (eql (plist-get line :edits) vialshoal--made)
       (null vialshoal--changes)
       (not vialshoal--is-lost)))

(defun vialshoal-review--show (threads)
  "Show THREADS in the text, and no more those that were shown."
  (mapc #'delete-overlay vialshoal-review--marks)
  (setq vialshoal-review--marks nil)
  (save-restriction
    (widen)
    (dolist (thread threads)
      (when (plist-get thread :begin)
        (push (vialshoal-review--mark thread) vialshoal-review--marks)))))

(defun vialshoal-review--mark (thread)
  "Return an overlay for THREAD.
That of one that isn't open is there to be found, and isn't seen."
  (let* ((beg (1+ (plist-get thread :begin)))
         (end (1+ (or (plist-get thread :end) (1- beg))))
         (mark (make-overlay beg end nil (< beg end))))
    (overlay-put mark 'vialshoal t)
    (overlay-put mark 'vialshoal-thread thread)
    (when (vialshoal-review--is-open thread)
      (vialshoal-review--dress mark thread (= beg end)))
    mark))

(defun vialshoal-review--help (thread)
  "Return what a `help-echo' is to be that has all words of THREAD.
They may be many, and few of them are looked at."
  (lambda (&rest _)
    (vialshoal--in-help (vialshoal-review--as-text thread))))

(defun vialshoal-review--dress (mark thread is-place)
  "Have MARK show THREAD; IS-PLACE if it has no text that could have a face."
  (let ((help (vialshoal-review--help thread)))
    (overlay-put mark 'help-echo help)
    (overlay-put mark 'mouse-face 'highlight)
    (if (vialshoal-review--is-suggestion thread)
        (progn
          (overlay-put mark 'face 'vialshoal-suggestion)
          (overlay-put mark 'after-string
                       (propertize (vialshoal-review--shown
                                    (plist-get thread :new)
                                    vialshoal-review--most-shown)
                                   'face 'vialshoal-suggested
                                   'help-echo help)))
      (overlay-put mark 'face 'vialshoal-remark)
      (when is-place
        (overlay-put mark 'after-string
                     (propertize "*" 'face 'vialshoal-remark
                                 'help-echo help))))))

(defun vialshoal-review--forget ()
  "Forget all threads, since the engine or the note isn't there any more."
  (vialshoal-review--show nil)
  (when vialshoal-review--timer
    (cancel-timer vialshoal-review--timer))
  (setq vialshoal-review--timer nil
        vialshoal-review--is-asking nil
        vialshoal-review--is-due nil)
  ;; While the engine is away, the next one will be asked.
  (unless vialshoal--is-away
    (vialshoal-review--keep-unanswered)))

(defun vialshoal-review--keep-unanswered ()
  "Keep the words that the engine didn't answer."
  (when vialshoal-review--unanswered
    (vialshoal-review--keep
     "The engine didn't answer."
     (mapconcat #'car (nreverse vialshoal-review--unanswered) "\n\n"))
    (setq vialshoal-review--unanswered nil)))

(defun vialshoal-review--opened-again (is-carried-over)
  "Ask the next engine for what the last one didn't answer.
Unless the text IS-CARRIED-OVER, nobody knows its places any more."
  (if is-carried-over
      (mapc #'vialshoal-review--send (reverse vialshoal-review--unanswered))
    (vialshoal-review--keep-unanswered)))
(add-hook 'vialshoal--opened-again-hook #'vialshoal-review--opened-again)
(add-hook 'vialshoal--forget-hook #'vialshoal-review--forget)

;;;; Which thread is meant

(defun vialshoal-review--here ()
  "Return the note's buffer: this one, or that to which this one belongs."
  (let ((buffer (or vialshoal-review--note
                    (vialshoal--in-note
                      (and vialshoal--note (current-buffer))))))
    (unless (buffer-live-p buffer)
      (user-error "This buffer is no note"))
    buffer))

(defun vialshoal-review--threads-at (place)
  "Return the threads of this note's text that are at PLACE."
  (nreverse
   (mapcar (lambda (mark) (overlay-get mark 'vialshoal-thread))
           (cl-remove-if-not (lambda (mark)
                               (<= (overlay-start mark) place
                                   (overlay-end mark)))
                             vialshoal-review--marks))))

(defun vialshoal-review--label (record number)
  "Return a line for RECORD, a thread or a reply, that begins with NUMBER."
  (format "%s. %s: %s" number (vialshoal--author record)
          (vialshoal-review--in-line
           (concat (and (plist-get record :new)
                        (concat "\"" (plist-get record :new) "\" "))
                   (plist-get record :body))
           50)))

(defun vialshoal-review--one-of (records words)
  "Return the one of RECORDS that the user means, or say WORDS if there is none."
  (cond ((null records) (user-error "%s" words))
        ((null (cdr records)) (car records))
        (t (let ((choices (cl-loop for record in records for number from 1
                                   collect (cons (vialshoal-review--label
                                                  record number)
                                                 record))))
             (cdr (assoc (completing-read "Which one: " choices nil t nil nil
                                          (caar choices))
                         choices))))))

(defun vialshoal-review--candidates ()
  "Return the threads at point, or that of the list's line."
  (if (derived-mode-p 'vialshoal-remarks-mode)
      (let ((thread (vialshoal-remarks--thread)))
        (and thread (list thread)))
    (let ((place (point)))
      (with-current-buffer (vialshoal-review--here)
        (vialshoal-review--threads-at place)))))

(defun vialshoal-review--thread (words &optional predicate)
  "Return the thread that the user means, of those that meet PREDICATE.
If there is none, say WORDS."
  (vialshoal-review--one-of
   (cl-remove-if-not (or predicate #'identity) (vialshoal-review--candidates))
   words))

(defun vialshoal-review--own-record (words)
  "Return the own record that the user means, or say WORDS if there is none."
  (vialshoal-review--one-of
   (cl-remove-if-not
    (lambda (record) (and (plist-get record :own)
                          (not (vialshoal-review--is-taken record))))
    (mapcan (lambda (thread) (cons thread
                                   (copy-sequence (plist-get thread :replies))))
            (vialshoal-review--candidates)))
   words))

(defun vialshoal-review--ask (then &rest line)
  "Send the engine of the note at hand LINE, and call THEN with its answer."
  (with-current-buffer (vialshoal-review--here)
    (apply #'vialshoal--ask then line)))

;;;; What the user writes

(defun vialshoal-review--say (what key text &rest line)
  "Ask that WHAT is done with TEXT, which the user wrote, as KEY of LINE.
What is refused isn't lost."
  (with-current-buffer (vialshoal-review--here)
    (let* ((text (vialshoal--clean text))
           (said (list text (append (list :do what key text)
                                    (vialshoal-review--marked line)
                                    (list :once (cl-incf vialshoal--once))))))
      (when vialshoal--is-open
        (push said vialshoal-review--unanswered))
      (vialshoal-review--send said))))

(defun vialshoal-review--marked (line)
  "Return LINE with markers as its places, which move with the text."
  (let* ((begin (plist-get line :begin))
         (is-place (eql begin (plist-get line :end))))
    (if (not begin)
        line
      (list :version nil
            :begin (copy-marker (1+ begin) (not is-place))
            :end (copy-marker (1+ (plist-get line :end)))))))

(defun vialshoal-review--send (said)
  "Send the request of SAID, one of `vialshoal-review--unanswered'."
  (apply #'vialshoal--ask
         (lambda (line)
           (setq vialshoal-review--unanswered
                 (delq said vialshoal-review--unanswered))
           (when (plist-get line :error)
             (vialshoal-review--keep (plist-get line :words) (car said))))
         (vialshoal-review--placed (cadr said))))

(defun vialshoal-review--placed (line)
  "Return LINE with its places as they are by now."
  (let (found)
    (cl-loop for (name value) on line by #'cddr
             do (push name found)
             do (push (cond ((eq name :version) vialshoal--version)
                            ((markerp value) (1- value))
                            (t value))
                      found))
    (nreverse found)))

(defun vialshoal-review--keep (words text)
  "Keep TEXT, which wasn't taken, and say so behind WORDS."
  (if (string-blank-p text)
      (vialshoal--say words)
    (kill-new text)
    (vialshoal--say (concat words "  What you wrote is in the kill ring"))))

(defvar-local vialshoal-review--then nil
  "What is called with the words that are written in this buffer.")

(defvar vialshoal-review-write-mode-map
  (let ((map (make-sparse-keymap)))
    (define-key map (kbd "C-c C-c") #'vialshoal-review-done)
    (define-key map (kbd "C-c C-k") #'vialshoal-review-drop)
    map)
  "The keys of `vialshoal-review-write-mode'.")

(define-derived-mode vialshoal-review-write-mode text-mode "Note-Words"
  "In a buffer of it one writes a remark, a reply or a suggested text."
  (setq-local local-enable-local-variables nil)
  (setq header-line-format
        (substitute-command-keys
         "\\[vialshoal-review-done] is done, \\[vialshoal-review-drop] drops it")))

(defun vialshoal-review--write (prompt words then)
  "Have the user write in a buffer which WORDS begin, named by PROMPT.
THEN is called with what was written."
  (let ((note (vialshoal-review--here)))
    (pop-to-buffer (generate-new-buffer
                    (format "*%s*" (string-trim-right prompt "[: ]+"))))
    (insert words)
    (vialshoal-review-write-mode)
    (setq vialshoal-review--note note
          vialshoal-review--then then)))

(defun vialshoal-review-done ()
  "Take what is written in this buffer."
  (interactive)
  (let ((then vialshoal-review--then)
        (words (buffer-substring-no-properties (point-min) (point-max))))
    (with-current-buffer (vialshoal-review--here)
      (funcall then words))
    (quit-window t)))

(defun vialshoal-review-drop ()
  "Leave what is written in this buffer unsaid."
  (interactive)
  (quit-window t))

(defun vialshoal-review--read (prompt words then)
  "Ask by PROMPT for words, which WORDS begin, and call THEN with them.
With a prefix argument, or where there are several lines, a buffer of their
own is for them."
  (if (or current-prefix-arg (string-search "\n" words))
      (vialshoal-review--write prompt words then)
    (funcall then (read-string prompt words))))

(defun vialshoal-review--read-body (prompt body then &optional words)
  "Call THEN with BODY, or with one for which PROMPT asks; it has some words.
What is asked for begins with WORDS."
  (let ((then (lambda (body)
                (when (string-blank-p body)
                  (user-error "Nothing was written"))
                (funcall then body))))
    (if body
        (funcall then body)
      (vialshoal-review--read prompt (or words "") then))))

;;;; Commands

(defun vialshoal-review--region ()
  "Return the ends of the region, or point twice."
  (if (use-region-p)
      (list (region-beginning) (region-end))
    (list (point) (point))))

(defun vialshoal-review--stretch (beg end)
  "Return a function for the part of a request with the place of BEG to END."
  (with-current-buffer (vialshoal-review--here)
    (let ((beg (copy-marker beg)) (end (copy-marker end)))
      (lambda ()
        (let ((from (1- (marker-position beg))) (to (1- (marker-position end))))
          (list :version vialshoal--version
                :begin from :end (max from to)))))))

;;;###autoload
(defun vialshoal-remark (beg end &optional body)
  "Remark on what is from BEG to END, the region, or on the place of point.
Say BODY, which is asked for; with a prefix argument in a buffer."
  (interactive (vialshoal-review--region))
  (let ((stretch (vialshoal-review--stretch beg end)))
    (vialshoal-review--read-body
     "Remark: " body
     (lambda (body)
       (apply #'vialshoal-review--say "remark" :body body
              (funcall stretch))))
    (setq deactivate-mark t)))

;;;###autoload
(defun vialshoal-suggest (beg end &optional new)
  "Suggest another text for what is from BEG to END, the region.
Without a region, it is to come in at point.  NEW, if it isn't given, is
what the user makes of the text; with a prefix argument in a buffer."
  (interactive (vialshoal-review--region))
  (let* ((stretch (vialshoal-review--stretch beg end))
         (old (buffer-substring-no-properties beg end))
         (then (lambda (new)
                 (when (equal new old)
                   (user-error "This is what is there"))
                 (apply #'vialshoal-review--say "suggest" :new new
                        (funcall stretch)))))
    (if new
        (funcall then new)
      (vialshoal-review--read "Suggest: " old then))
    (setq deactivate-mark t)))

;;;###autoload
(defun vialshoal-reply (thread &optional body)
  "Reply to THREAD, that at point, with BODY, which is asked for.
With a prefix argument it is written in a buffer."
  (interactive (list (vialshoal-review--thread "No remark is here")))
  (vialshoal-review--read-body
   (format "Reply to %s: " (vialshoal--author thread)) body
   (lambda (body)
     (vialshoal-review--say "reply" :body body
                            :to (plist-get thread :id)))))

(defun vialshoal-review--set (what thread)
  "Ask that WHAT is done to THREAD."
  (vialshoal-review--ask #'ignore :do what :to (plist-get thread :id)))

;;;###autoload
(defun vialshoal-resolve (thread)
  "Say that THREAD, the open one at point, is resolved."
  (interactive (list (vialshoal-review--thread "No open remark is here"
                                               #'vialshoal-review--is-open)))
  (vialshoal-review--set "resolve" thread))

;;;###autoload
(defun vialshoal-reopen (thread)
  "Open THREAD, one at point that is resolved or rejected, again."
  (interactive (list (vialshoal-review--thread
                      "No remark is here that could be opened again"
                      (lambda (thread) (member (plist-get thread :state)
                                               '("resolved" "rejected"))))))
  (vialshoal-review--set "reopen" thread))

(defun vialshoal-review--open-suggestion ()
  "Return the open suggestion that the user means."
  (vialshoal-review--thread "No open suggestion is here"
                            (lambda (thread)
                              (and (vialshoal-review--is-open thread)
                                   (vialshoal-review--is-suggestion thread)))))

;;;###autoload
(defun vialshoal-reject (thread)
  "Reject THREAD, the suggestion at point."
  (interactive (list (vialshoal-review--open-suggestion)))
  (vialshoal-review--set "reject" thread))

;;;###autoload
(defun vialshoal-accept (thread)
  "Accept THREAD, the suggestion at point.
Where its text has changed since, it is shown what that would become, and
`vialshoal-accept-anyway' accepts it so.  `vialshoal-undo' takes it back."
  (interactive (list (vialshoal-review--open-suggestion)))
  (vialshoal-review--accept thread))

(defun vialshoal-review--accept (thread &rest more)
  "Ask that THREAD is accepted, with MORE of the request."
  (let ((note (vialshoal-review--here)))
    (apply #'vialshoal-review--ask
           (lambda (line)
             (if (equal (plist-get line :error) "changed")
                 (vialshoal-review--show-what-changed note thread line)
               (funcall (vialshoal--unless-done "It was accepted already")
                        line)))
           :do "accept" :to (plist-get thread :id) more)))

(defvar-local vialshoal-review--changed nil
  "The suggestion whose text has changed, as this buffer shows.")

(defvar-local vialshoal-review--becomes nil
  "The text that comes if the suggestion is accepted, as this buffer shows.")

(defvar vialshoal-accept-mode-map
  (let ((map (make-sparse-keymap)))
    (define-key map "a" #'vialshoal-accept-anyway)
    map)
  "The keys of `vialshoal-accept-mode'.")

(define-derived-mode vialshoal-accept-mode special-mode "Note-Accept"
  "A suggestion whose text has changed since it was made.
\\{vialshoal-accept-mode-map}"
  (setq-local local-enable-local-variables nil))

(defun vialshoal-review--name-of-changed (thread)
  "Return the name of the buffer about how the text of THREAD changed."
  (format "*accept %s*" (plist-get thread :id)))

(defun vialshoal-review--show-what-changed (note thread line)
  "Show how the text of THREAD of NOTE changed, by LINE, an answer.
The user may be typing, so nothing is asked, and no other window selected."
  (when (buffer-live-p note)
    (let ((shown (get-buffer-create (vialshoal-review--name-of-changed
                                     thread))))
      (with-current-buffer shown
        (vialshoal-accept-mode)
        (setq vialshoal-review--note note
              vialshoal-review--changed thread
              vialshoal-review--becomes (plist-get line :becomes))
        (let ((inhibit-read-only t))
          (erase-buffer)
          (pcase-dolist (`(,what ,words) '((:was "It was:")
                                           (:now "It is now:")
                                           (:becomes "It would be:")))
            (insert words "\n" (vialshoal-review--shown (plist-get line what))
                    "\n\n"))
          (insert (substitute-command-keys
                   "\\[vialshoal-accept-anyway] accepts this, \\[quit-window] \
leaves it open.\n")))
        (goto-char (point-min)))
      (display-buffer shown '(nil (inhibit-same-window . t)
                                  (inhibit-switch-frame . t)))
      (with-current-buffer note
        (vialshoal--say (concat (plist-get line :words) "  Accept what is "
                                "shown: M-x vialshoal-accept-anyway"))))))

;;;###autoload
(defun vialshoal-accept-anyway (thread)
  "Accept THREAD, the suggestion at point, although its text has changed.
`vialshoal-accept' has shown what that becomes; if it has changed again,
that is shown anew."
  (interactive (list (or vialshoal-review--changed
                         (vialshoal-review--open-suggestion))))
  (let ((note (vialshoal-review--here))
        (shown (get-buffer (vialshoal-review--name-of-changed thread))))
    (unless shown
      (user-error "First M-x vialshoal-accept"))
    (let ((becomes (buffer-local-value 'vialshoal-review--becomes shown)))
      (if-let ((window (get-buffer-window shown t)))
          (quit-window t window)
        (kill-buffer shown))
      (with-current-buffer note
        (vialshoal-review--accept thread :becomes becomes)))))

;;;###autoload
(defun vialshoal-revise (record &optional body)
  "Have RECORD, an own remark, suggestion or reply at point, say BODY.
With a prefix argument it is written in a buffer."
  (interactive (list (vialshoal-review--own-record "Nothing of yours is here")))
  (vialshoal-review--read-body
   "Say: " body
   (lambda (body)
     (vialshoal-review--say "revise" :body body
                            :to (plist-get record :id)))
   (plist-get record :body)))

;;;###autoload
(defun vialshoal-withdraw (record)
  "Take back RECORD, an own remark, suggestion or reply at point."
  (interactive (list (vialshoal-review--own-record "Nothing of yours is here")))
  (vialshoal-review--set "withdraw" record))

;;;###autoload
(defun vialshoal-show-remark (thread)
  "Show all words of THREAD, the one at point."
  (interactive (list (vialshoal-review--thread "No remark is here")))
  (let ((note (vialshoal-review--here)))
    (with-current-buffer (get-buffer-create "*remark*")
      (special-mode)
      (setq-local local-enable-local-variables nil)
      (setq vialshoal-review--note note)
      (let ((inhibit-read-only t))
        (erase-buffer)
        (insert (vialshoal-review--as-text thread) "\n"))
      (goto-char (point-min))
      (display-buffer (current-buffer)))))

;;;###autoload
(defun vialshoal-next-remark (&optional count)
  "Go to the next open remark or suggestion, or COUNT of them on, and read it.
Behind the last one comes the first."
  (interactive "p")
  (vialshoal-review--visit
   (vialshoal-review--further
    (cl-remove-if-not (lambda (mark)
                        (vialshoal-review--is-open
                         (overlay-get mark 'vialshoal-thread)))
                      (buffer-local-value 'vialshoal-review--marks
                                          (vialshoal-review--here)))
    (or count 1) "There are no open remarks")))

;;;###autoload
(defun vialshoal-previous-remark (&optional count)
  "Go to the previous open remark, or COUNT of them back, and read it."
  (interactive "p")
  (vialshoal-next-remark (- (or count 1))))

(defun vialshoal-review--further (marks count words)
  "Return the overlay that is COUNT further on than point, or back.
It is one of MARKS.  If there is none, say WORDS."
  (unless marks
    (user-error "%s" words))
  (let* ((is-forward (> count 0))
         ;; The list can be that of all.
         (sorted (cl-sort (copy-sequence marks) (if is-forward #'< #'>)
                          :key #'overlay-start))
         (place (point))
         (is-ahead (lambda (mark)
                     (funcall (if is-forward #'> #'<)
                              (overlay-start mark) place))))
    (nth (mod (1- (abs count)) (length sorted))
         (append (cl-remove-if-not is-ahead sorted)
                 (cl-remove-if is-ahead sorted)))))

(defun vialshoal-review--visit (mark)
  "Go to MARK, and show its words in the echo area."
  (goto-char (overlay-start mark))
  (vialshoal-review--tell (vialshoal-review--as-text
                           (overlay-get mark 'vialshoal-thread))))

(provide 'vialshoal-review)
;;; vialshoal-review.el ends here
