;;; vialshoal.el --- Write a note with others  -*- lexical-binding: t; -*-

;; Version: 0.1
;; Package-Requires: ((emacs "28.1"))
;; Keywords: comm, convenience

;;; Commentary:

;; `M-x vialshoal-open' opens a note that several people edit at the same
;; time, in whatever major mode you like.  You write as ever; what others
;; write comes in beside it, with their cursors and names.
;;
;; `C-/' takes back your own last edit, whoever wrote since; `C-M-_' makes it
;; again.  `C-x C-w' saves the text as a file.  `M-x vialshoal-history' goes
;; through older texts, `M-x vialshoal-who-wrote-this' names the authors of
;; the region or the line.  `M-x vialshoal-changed' marks what came since you
;; looked, `M-x vialshoal-remark' and `M-x vialshoal-suggest' begin a review.
;;
;; All is kept as it is typed.  The mode line says whether others have it.
;; If the engine ends, type on: it is started again, and gets what it lacks.
;; `M-x vialshoal-put-back' types words again that the note didn't take.
;;
;; While a command that asks holds places, as `M-%' does, others' text waits.
;; Bookmarks, desktops and, as "/vialshoal:NAME", recent files open notes again.
;;
;; An engine, the program `note', has the note open; docs/ENGINE.md has the
;; lines that are said to it and by it.  Text and names come from other
;; people: they are shown, and nothing in them is obeyed.

;;; Code:

(require 'cl-lib)
(require 'subr-x)

;;;; Options

(defgroup vialshoal nil
  "Write notes together with others."
  :group 'applications
  :prefix "vialshoal-")

(defcustom vialshoal-command
  (let ((beside (and load-file-name
                     (expand-file-name "../../bin/note"
                                       (file-name-directory
                                        (file-chase-links load-file-name))))))
    (list (if (and beside (file-executable-p beside)) beside "note")))
  "The program that has notes open, and arguments to come first."
  :type '(repeat string))

(defcustom vialshoal-name
  (let ((name (getenv "VIALSHOAL_NAME")))
    (if (member name '(nil "")) (user-full-name) name))
  "The name by which others see you.
If it isn't set, it is that of the environment variable VIALSHOAL_NAME,
or else your account's full name."
  :type 'string)

(defcustom vialshoal-colour nil
  "The colour of your cursor at others, as \"#3366cc\"; nil lets one be chosen."
  :type '(choice (const :tag "Chosen for you" nil) string))

(defcustom vialshoal-shows-remarks t
  "Whether remarks and suggestions are shown in notes that are opened."
  :type 'boolean)

(defcustom vialshoal-major-mode #'text-mode
  "The major mode in which a note is opened.
Any other can be had afterwards, as in all buffers."
  :type 'function)

(defface vialshoal-name
  '((t :weight bold))
  "Others' names, in colours of their own.")

;;;; What a buffer has

(defmacro vialshoal--defvar (name value doc)
  "Define NAME as local to each note's buffer, with VALUE at first and DOC.
Another major mode leaves it."
  (declare (indent 2) (doc-string 3))
  `(progn (defvar-local ,name ,value ,doc)
          (put ',name 'permanent-local t)))

(vialshoal--defvar vialshoal--note nil
  "The note's name.")
(vialshoal--defvar vialshoal--process nil
  "The engine's process.")
(vialshoal--defvar vialshoal--environment nil
  "The environment in which the note was opened.
An engine that is started again has to find the same note.")
(vialshoal--defvar vialshoal--is-open nil
  "Whether the engine has opened the note.")
(vialshoal--defvar vialshoal--is-away nil
  "Whether the engine ended that had the note open, and none has opened it again.
The user types on meanwhile.")
(vialshoal--defvar vialshoal--editor nil
  "The name by which engines know this editor again.")
(vialshoal--defvar vialshoal--begun 0
  "When the engine was started.")
(vialshoal--defvar vialshoal--version 0
  "The version of the last notice that was applied.")
(vialshoal--defvar vialshoal--made 0
  "How many edits were made here.")
(vialshoal--defvar vialshoal--answered 0
  "How many of them the engine has answered.")
(vialshoal--defvar vialshoal--sent 0
  "How many of them were sent to this engine, or carried over to it.")
(vialshoal--defvar vialshoal--step '(0 . 0)
  "The version and the edits at which the editor was last in step.
It had exactly the engine's text then.")
(vialshoal--defvar vialshoal--edits nil
  "The edits made since then, and those that aren't answered; the last first.
Each is its number, a list of changes, how it joins, and a marker.")
(vialshoal--defvar vialshoal--since nil
  "Since when not all of them are answered.")
(vialshoal--defvar vialshoal--mirror nil
  "A hidden buffer with the text that the engine knows to be here.
What it gathered is in there, too.  It tells what has really changed:
hooks are also called for text that stays as it is, and some changes
are made with no hook called.")
(vialshoal--defvar vialshoal--changes nil
  "The changes that were gathered and aren't sent, the last one first.")
(vialshoal--defvar vialshoal--diverts nil
  "What takes a change that the user made, in place of the engine, if anything.")
(vialshoal--defvar vialshoal--tick nil
  "The buffer's tick after the last change that was seen.")
(vialshoal--defvar vialshoal--is-lost nil
  "Whether a change of the engine's failed, so that its text is asked for.")
(vialshoal--defvar vialshoal--is-unclean nil
  "Whether characters were typed that are none of Unicode.")
(vialshoal--defvar vialshoal--state nil
  "The last notice `state'.")
(vialshoal--defvar vialshoal--remarks nil
  "The last notice `remarks'.")
(vialshoal--defvar vialshoal--words nil
  "What the engine said last for the user.")
(vialshoal--defvar vialshoal--beside nil
  "The buffer that has the text that gave way to another one, if any.")
(vialshoal--defvar vialshoal--asked 0
  "How many requests had a number.")
(vialshoal--defvar vialshoal--waiting nil
  "What is to be done with the answers, by the requests' numbers.
Each is a list of the number, the function to call, and the request.")
(vialshoal--defvar vialshoal--cursors nil
  "Others' cursors.")
(vialshoal--defvar vialshoal--overlays nil
  "What shows them.")
(vialshoal--defvar vialshoal--place nil
  "Point and the other end of the region, as they were sent last.")
(vialshoal--defvar vialshoal--place-sent 0
  "When they were.")
(vialshoal--defvar vialshoal--timer nil
  "What sends later what no command sends.")
(vialshoal--defvar vialshoal--unseen 0
  "How many notices were applied since the engine was told of one.")
(vialshoal--defvar vialshoal--piece nil
  "The parts of a line that hasn't come to its end, the last one first.")
(vialshoal--defvar vialshoal--lines nil
  "The lines that came and weren't looked at.")
(vialshoal--defvar vialshoal--is-taking nil
  "Whether a line is being looked at.")
(vialshoal--defvar vialshoal--holds 0
  "How many commands hold places of this buffer as numbers.")
(vialshoal--defvar vialshoal--has-told-version nil
  "Whether the engine was told which version is here while lines wait.")
(vialshoal--defvar vialshoal--joins nil
  "Whether the next edit is undone with the one before it.
The symbol next says that only those behind it are, and begins that it
isn't, either.  Nil leaves it to the engine.  What a command does that
holds places is one edit.")
(vialshoal--defvar vialshoal--wanted-place nil
  "Where point is to be once the note is open.")

(defvar vialshoal--close-hook nil
  "What is called before a note is closed.")

(defvar vialshoal-again--is-ending nil
  "Whether Emacs is ending, so that no buffer keeps anything.")

(defvar vialshoal--forget-hook nil
  "What is called where all is forgotten that an engine said.")

(defvar vialshoal--opened-again-hook nil
  "What is called once another engine has opened a note.
Its argument says whether that shows the text that is here.")

(vialshoal--defvar vialshoal--once 0
  "The number of what the user said last, by which an engine writes it once.")

(defvar vialshoal--applying nil
  "The buffer that is being changed as the engine says.")

(defvar evil-state)

(defconst vialshoal--most-unanswered 10
  "With so many edits unanswered, changes are gathered.")

(defconst vialshoal--end-patience 10
  "Emacs's end waits for engines that have to read yet so long at most.")

(defconst vialshoal--seen-every 100
  "After so many notices the engine is told what was seen.")

(defconst vialshoal--most-text 1000000
  "An edit has so many characters at most, so that its line isn't too long.")

(defconst vialshoal--steady-seconds 2
  "An engine that ran for so long is started again at once when it ends.")

(defmacro vialshoal--in-note (&rest body)
  "Run BODY in the note's buffer, where this one is an indirect one of it.
An indirect buffer has copies of all variables, which go stale."
  (declare (indent 0) (debug t))
  `(with-current-buffer (or (buffer-base-buffer) (current-buffer))
     ,@body))

(defmacro vialshoal--by-engine (&rest body)
  "Run BODY to alter the whole buffer's text for the engine.
Other modes' hooks are called for it, since they have to know.  It is
no edit of the user's: the region stays, and undo knows nothing of it."
  (declare (indent 0) (debug t))
  `(let ((vialshoal--applying (current-buffer))
         (inhibit-modification-hooks nil)
         (inhibit-read-only t)
         (buffer-undo-list t)
         (deactivate-mark nil)
         (was-modified (buffer-modified-p)))
     (save-restriction
       (widen)
       ,@body)
     (restore-buffer-modified-p was-modified)))

;;;; Text and names of others

(defconst vialshoal--no-name
  "[\0-\x1f\x7f-\x9f\u061c\u200e\u200f\u2028-\u202e\u2066-\u2069]"
  "What no name has: controls, and what turns the direction of writing.")

(defun vialshoal--shown-name (name &optional most)
  "Return NAME as it may be shown, with 40 characters or MOST."
  (let ((name (replace-regexp-in-string vialshoal--no-name "" (or name ""))))
    (substring name 0 (min (or most 40) (length name)))))

(defun vialshoal--in-mode-line (words)
  "Return WORDS as a mode line or a header line can have them."
  (string-replace "%" "%%" words))

(defun vialshoal--in-help (words)
  "Return WORDS as a `help-echo' can have them."
  (string-replace "\\" "\\=\\" words))

(defun vialshoal--say (words)
  "Show WORDS in the echo area."
  (setq vialshoal--words words)
  (message "%s" words))

(defun vialshoal--say-once (words)
  "Show WORDS in the echo area, unless they were said last."
  (unless (equal words vialshoal--words)
    (vialshoal--say words)))

(defun vialshoal--shown-colour (colour)
  "Return COLOUR where it is one, and else that of text."
  (if (and (stringp colour)
           (string-match-p "\\`#[[:xdigit:]]\\{6\\}\\'" colour))
      colour
    'unspecified))

;;;; Lines

(defun vialshoal--send (&rest line)
  "Send the engine LINE, a property list."
  (when (process-live-p vialshoal--process)
    ;; What can't be written is that of an engine that has ended, and that
    ;; is dealt with where its end is told.
    (ignore-errors
      (process-send-string vialshoal--process
                           (concat (json-serialize line) "\n")))))

(defun vialshoal--ask (then &rest line)
  "Send the engine LINE, and call THEN with its answer."
  (vialshoal--in-note
    (cond (vialshoal--is-away
           (user-error "%s" (concat "This was not done, because the engine is "
                                    "being started again.  Nothing is lost; "
                                    "repeat it in a moment")))
          ((not vialshoal--is-open) (user-error "This note isn't open")))
    (vialshoal--flush)
    (cl-incf vialshoal--asked)
    (push (list vialshoal--asked then (plist-get line :do)) vialshoal--waiting)
    (apply #'vialshoal--send :id vialshoal--asked line)))

(defun vialshoal--read (line)
  "Parse LINE into a property list."
  (if (string-search "\\u0000" line)
      (vialshoal--read-with-nul line)
    (vialshoal--parse line)))

(defun vialshoal--parse (line)
  "Parse LINE, which has no escaped NUL, into a property list."
  (json-parse-string line :object-type 'plist :array-type 'list
                     :null-object nil :false-object nil))

(defun vialshoal--read-with-nul (line)
  "Parse LINE, although this Emacs takes no escaped NUL."
  (let ((stand-in (cl-loop for char from #xf0000
                           unless (string-search (string char) line)
                           return (string char))))
    ;; Escapes are met one by one, so `\\u0000' isn't taken for one.
    (vialshoal--with-nul
     stand-in
     (vialshoal--parse
      (replace-regexp-in-string
       "\\\\\\(?:u0000\\|.\\)"
       (lambda (escape) (if (equal escape "\\u0000") stand-in escape))
       line t t)))))

(defun vialshoal--with-nul (stand-in value)
  "Return VALUE with NUL for STAND-IN in all strings that it has."
  (cond ((stringp value) (string-replace stand-in "\0" value))
        ((consp value)
         (mapcar (lambda (each) (vialshoal--with-nul stand-in each)) value))
        (t value)))

(defun vialshoal--filter (process output)
  "Take in the OUTPUT of PROCESS."
  (let ((buffer (process-get process 'vialshoal-buffer)))
    (when (buffer-live-p buffer)
      (with-current-buffer buffer
        (when (eq process vialshoal--process)
          (vialshoal--cut output)
          (vialshoal--take-lines))))))

(defun vialshoal--cut (output)
  "Keep the lines of OUTPUT, and what is left for the next output."
  (let ((begin 0) end lines)
    (while (setq end (string-search "\n" output begin))
      (push (substring output begin end) vialshoal--piece)
      (push (apply #'concat (nreverse vialshoal--piece)) lines)
      (setq vialshoal--piece nil
            begin (1+ end)))
    (push (substring output begin) vialshoal--piece)
    (setq lines (nreverse lines))
    (unless (zerop vialshoal--holds)
      (setq lines (cl-delete-if #'vialshoal--take-ahead lines)))
    (setq vialshoal--lines (nconc vialshoal--lines lines))))

(defun vialshoal--take-lines ()
  "Look at the lines that came, in their order.
While something is sent more of them can come: they wait.  So they do
while a command holds places as numbers."
  (unless vialshoal--is-taking
    (setq vialshoal--is-taking t)
    (unwind-protect
        (while (and vialshoal--lines (zerop vialshoal--holds))
          (vialshoal--take-line (pop vialshoal--lines)))
      (setq vialshoal--is-taking nil)))
  (unless (zerop vialshoal--holds)
    (vialshoal--tell-version)))

(defun vialshoal--take-ahead (line)
  "Take in LINE ahead of those that wait, if the text stays as it is by it.
It answers an edit, or an opening to which edits were carried over.  So
what a command does is sent, and kept, while it goes on."
  (let ((line (ignore-errors (vialshoal--read line))))
    (when (and (or (equal (plist-get line :answer) "edit")
                   (and (equal (plist-get line :answer) "open")
                        (not (plist-member line :text))))
               (not (plist-get line :error)))
      (vialshoal--take-answer line)
      t)))

(defun vialshoal--tell-version ()
  "Tell the engine which version is here where many lines wait.
From then on it keeps what is needed to carry edits over from there."
  (when (and (not vialshoal--has-told-version)
             (nthcdr vialshoal--seen-every vialshoal--lines))
    (setq vialshoal--has-told-version t)
    (vialshoal--send :do "seen" :version vialshoal--version)))

(defun vialshoal--take-line (line)
  "Obey LINE, as it came."
  (condition-case why
      (let ((line (vialshoal--read line)))
        (vialshoal--flush)
        (vialshoal--take line))
    ;; A hook of another mode can fail in the middle of a change.
    (error (message "Vialshoal: %s" (error-message-string why))
           (setq vialshoal--is-lost t)
           (vialshoal--send :do "text" :edits vialshoal--made))))

(defun vialshoal--take (line)
  "Obey LINE, a property list."
  (cond ((plist-get line :notice) (vialshoal--take-notice line))
        ((plist-get line :answer) (vialshoal--take-answer line))))

(defun vialshoal--take-answer (line)
  "Take in the answer LINE."
  (let ((edits (and (equal (plist-get line :answer) "edit")
                    (plist-get line :edits)))
        (then (car (alist-get (plist-get line :id) vialshoal--waiting))))
    (when (plist-get line :error)
      (vialshoal--take-error line edits))
    (when edits
      (vialshoal--take-answered line edits))
    (when then
      (setf (alist-get (plist-get line :id) vialshoal--waiting nil t) nil)
      (funcall then line))))

(defun vialshoal--take-error (line edits)
  "Tell the error of LINE; if it is to EDITS, keep the words of these."
  (let ((words (plist-get line :words)))
    (if edits
        (vialshoal-again--refused words edits)
      (funcall (if vialshoal--is-away #'vialshoal--say-once #'vialshoal--say)
               (concat words (vialshoal--beside-words))))
    (unless (or (plist-get line :edits) (plist-get line :id))
      (vialshoal--send :do "text" :edits vialshoal--made))))

(defun vialshoal--take-answered (line edits)
  "Note that LINE answers all edits up to EDITS."
  (setq vialshoal--answered edits)
  (unless (plist-get line :error)
    (setq vialshoal--beside nil)
    (when (and (= edits vialshoal--made)
               (eql (plist-get line :version) vialshoal--version))
      (setq vialshoal--step (cons vialshoal--version edits))))
  (vialshoal--forget-edits)
  (when (= edits vialshoal--made)
    (restore-buffer-modified-p nil)))

;;;; Edits

(defun vialshoal--after-change (beg end length)
  "Gather a change: LENGTH characters gave way to those from BEG to END."
  (vialshoal--in-note
    (unless (or (eq vialshoal--applying (current-buffer))
                (not (vialshoal--takes-keys)))
      (unless vialshoal--diverts
        (save-restriction
          (widen)
          (vialshoal--gather beg end length)))
      (vialshoal--soon))
    ;; What is diverted is found once the command has done its work.
    (setq vialshoal--tick (and (not vialshoal--diverts)
                               (buffer-chars-modified-tick)))))
(put 'vialshoal--after-change 'permanent-local-hook t)

(defun vialshoal--gather (beg end length)
  "Gather what has changed where LENGTH characters gave way to BEG to END.
Nothing is sent yet: that can have other buffers' text come in, in the
middle of what a command does."
  (if (> (+ beg length) (with-current-buffer vialshoal--mirror (point-max)))
      ;; There was a change before of which nobody told.
      (setq vialshoal--tick nil)
    (pcase-let ((`(,beg ,end ,old-end)
                 (vialshoal--differing beg end (+ beg length))))
      (unless (= beg end old-end)
        (pcase-dolist (`(,from ,to ,text)
                       (vialshoal--respaced
                        beg (with-current-buffer vialshoal--mirror
                              (buffer-substring beg old-end))
                        (vialshoal--clean
                         (buffer-substring-no-properties beg end))))
          (vialshoal--gather-text from to text))))))

(defconst vialshoal--spaced-word "\\([ \t\n]*\\)\\([^ \t\n]*\\)"
  "A word and the space before it; both can be empty.")

(defun vialshoal--respaced (beg old new)
  "Return how NEW takes the place of OLD, which begins at BEG.
It is a list of a beginning, an end and a text each.
Where both have the same words, as after `fill-paragraph', only the
space between them changes.  So words stay their authors', and what
others write among them stays there."
  (let ((from 0) (to 0) (same t) changes)
    (while (and same (or (< from (length old)) (< to (length new))))
      (string-match vialshoal--spaced-word old from)
      (let ((space (match-string 1 old))
            (word (match-string 2 old))
            (place (+ beg to)))
        (setq from (match-end 0))
        (string-match vialshoal--spaced-word new to)
        (unless (equal space (match-string 1 new))
          (push (list place (+ place (length space)) (match-string 1 new))
                changes))
        (setq to (match-end 0)
              same (equal word (match-string 2 new)))))
    (if same
        (nreverse changes)
      (list (list beg (+ beg (length old)) new)))))

(defun vialshoal--differing (beg end old-end)
  "Return what differs of BEG to END here, and of BEG to OLD-END in the mirror.
It is a list of the beginning, the end here, and the end there."
  (let* ((case-fold-search nil)
         (compared (compare-buffer-substrings nil beg end
                                              vialshoal--mirror beg old-end)))
    (if (zerop compared)
        (list beg beg beg)
      (let* ((from (+ beg (abs compared) -1))
             (tail (vialshoal--same-tail end old-end
                                         (- (min end old-end) from))))
        (list from (- end tail) (- old-end tail))))))

(defun vialshoal--same-tail (end old-end most)
  "Return how much before END here is as what is before OLD-END in the mirror.
It is MOST characters at most."
  (let ((case-fold-search nil) (same 0) (step 1))
    (while (> step 0)
      (if (and (<= (+ same step) most)
               (zerop (compare-buffer-substrings
                       nil (- end same step) (- end same) vialshoal--mirror
                       (- old-end same step) (- old-end same))))
          (setq same (+ same step)
                step (* 2 step))
        (setq step (/ step 2))))
    same))

(defconst vialshoal--no-character "[^\0-\ud7ff\ue000-\U0010ffff]"
  "What Emacs can have in a buffer and is no character of Unicode.")

(defun vialshoal--clean (text)
  "Return TEXT with U+FFFD for what is no character of Unicode."
  (if (not (string-match-p vialshoal--no-character text))
      text
    (setq vialshoal--is-unclean t)
    (replace-regexp-in-string vialshoal--no-character "\ufffd" text)))

(defun vialshoal--gather-text (beg end text)
  "Gather that TEXT took the place of what was from BEG to END."
  (with-current-buffer vialshoal--mirror
    (vialshoal--replace beg end text))
  (cl-loop for from from 0 by vialshoal--most-text
           for to = (min (length text) (+ from vialshoal--most-text))
           for at = (+ beg from)
           do (push (vector (1- at) (1- (if (= from 0) end at))
                            (substring text from to))
                    vialshoal--changes)
           while (< to (length text))))

(defun vialshoal--replace (beg end text)
  "Have TEXT in the place of what is from BEG to END.
Point and the mark stay behind the characters that are before them, as
others see them do; at a line's begin they go with the line where whole
lines come in there.  One that is on a character goes with that."
  (let* ((is-on (vialshoal--is-on-character beg))
         (places (and (= beg end) (> (buffer-size) 0)
                      (or is-on
                          (and (string-suffix-p "\n" text)
                               (or (= beg (point-min))
                                   (eq (char-before beg) ?\n))))
                      (vialshoal--places beg is-on))))
    (save-excursion
      (goto-char end)
      (if (= beg end)
          (insert text)
        (insert-before-markers text)
        (delete-region beg end)))
    (dolist (move places)
      (funcall move (+ beg (length text))))))

(defun vialshoal--is-on-character (place)
  "Say whether a cursor at PLACE is on a character, as in Vim.
Where one types, as in all of Emacs, it is between two of them."
  (and (bound-and-true-p evil-local-mode)
       (memq evil-state '(normal visual motion operator))
       (not (memq (char-after place) '(nil ?\n)))))

(defun vialshoal--places (place is-on-character)
  "Return functions that move what of the user is at PLACE.
What comes in where the region ends isn't in it, so that stays, unless
what is there IS-ON-CHARACTER."
  (let* ((mark (mark t))
         (is-end (and mark-active mark (/= mark (point))
                      (not is-on-character)
                      (= place (max mark (point)))))
         (windows (cl-remove-if-not
                   (lambda (window)
                     (and (not (eq window (selected-window)))
                          (= place (window-point window))))
                   (get-buffer-window-list nil nil t))))
    (append
     (and (= place (point)) (not is-end) (list #'goto-char))
     (and (eql place mark) (not is-end)
          (list (lambda (to) (set-marker (mark-marker) to))))
     (mapcar (lambda (window)
               (lambda (to) (set-window-point window to)))
             windows))))

(defun vialshoal--find-changes ()
  "Gather what was altered with no hook called."
  (when vialshoal--is-unclean
    (vialshoal--show-clean))
  (unless (and (eql vialshoal--tick (buffer-chars-modified-tick))
               (= (buffer-size) (buffer-size vialshoal--mirror)))
    ;; A hook that fails has Emacs take all functions out of it.
    (add-hook 'after-change-functions #'vialshoal--after-change nil t)
    (if vialshoal--diverts
        (funcall vialshoal--diverts)
      (save-restriction
        (widen)
        (vialshoal--gather (point-min) (point-max)
                           (buffer-size vialshoal--mirror))))
    (setq vialshoal--tick (buffer-chars-modified-tick))))

(defun vialshoal--show-clean ()
  "Show U+FFFD for what is no character of Unicode, as all others do."
  (setq vialshoal--is-unclean nil)
  (vialshoal--by-engine
    (save-excursion
      (goto-char (point-min))
      (while (re-search-forward vialshoal--no-character nil t)
        (replace-match "\ufffd" t t)))))

(defun vialshoal--flush-command ()
  "Send what a command has changed, unless many edits are unanswered.
Then it is sent with what follows, before the next line is looked at."
  (vialshoal--in-note
    (when (< (- vialshoal--made vialshoal--answered)
             vialshoal--most-unanswered)
      (vialshoal--flush))))

(defun vialshoal--takes-keys ()
  "Say whether what the user types counts as edits of the note."
  (or vialshoal--is-open vialshoal--is-away))

(defun vialshoal--flush ()
  "Send what was gathered, as one edit; in parts where that is much.
While there is no engine it is numbered, and sent later."
  (when (and (vialshoal--takes-keys) (not vialshoal--is-lost))
    (vialshoal--find-changes)
    (when vialshoal--changes
      (let ((edits (vialshoal--in-edits (nreverse vialshoal--changes))))
        (when (= vialshoal--answered vialshoal--made)
          (setq vialshoal--since (vialshoal--now)))
        ;; All count before the first is sent: while it is, lines can come.
        (setq vialshoal--changes nil
              vialshoal--unseen 0)
        (dolist (edit edits)
          (vialshoal--number edit (if (eq edit (car edits)) vialshoal--joins t)))
        (when vialshoal--joins
          (setq vialshoal--joins t))
        (vialshoal--send-edits)))))

(defun vialshoal--number (edit joins)
  "Give EDIT, a list, the next number, and keep it.
By JOINS, which has the values of `vialshoal--joins', it is undone with
the one before or not."
  (push (list (cl-incf vialshoal--made) edit joins
              (copy-marker (min (1+ (aref (car edit) 0)) (1+ (buffer-size)))))
        vialshoal--edits))

(defun vialshoal--send-edits ()
  "Send the edits that this engine hasn't, in the order of their numbers."
  (while (and vialshoal--is-open (< vialshoal--sent vialshoal--made))
    (pcase-let ((`(,number ,edit ,joins)
                 (assq (cl-incf vialshoal--sent) vialshoal--edits)))
      (vialshoal--send-edit number edit joins))))

(defun vialshoal--forget-edits ()
  "Forget the edits that are answered and came before the last step."
  (let ((most (min vialshoal--answered (cdr vialshoal--step))))
    (setq vialshoal--edits
          (cl-delete-if (lambda (edit)
                          (when (<= (car edit) most)
                            (set-marker (nth 3 edit) nil)
                            t))
                        vialshoal--edits))))

(defun vialshoal--in-edits (list)
  "Split LIST into lists that are an edit each.
Positions make lines long, too, where there are many changes."
  (let (edits edit (size 0))
    (dolist (change list)
      (let ((more (+ 20 (length (aref change 2)))))
        (when (and edit (> (+ size more) vialshoal--most-text))
          (push (nreverse edit) edits)
          (setq edit nil
                size 0))
        (push change edit)
        (cl-incf size more)))
    (nreverse (cons (nreverse edit) edits))))

(defun vialshoal--send-edit (number edit joins)
  "Send EDIT, a list, as that of this NUMBER, with JOINS."
  (apply #'vialshoal--send :do "edit" :version vialshoal--version
         :edits number (vialshoal--edit-fields edit joins)))

(defun vialshoal--edit-fields (edit joins)
  "Return what a request has of EDIT, a list, with JOINS."
  (cons :changes
        (cons (vconcat edit)
              (pcase joins
                ('t '(:join t))
                ('begins '(:join :false))))))

(defun vialshoal--soon ()
  "Send soon what was gathered, where no command does it."
  (unless vialshoal--timer
    (setq vialshoal--timer
          (run-at-time 0 nil #'vialshoal--in-time (current-buffer)))))

(defun vialshoal--in-time (buffer)
  "Send what BUFFER has to send."
  (when (buffer-live-p buffer)
    (with-current-buffer buffer
      (vialshoal--in-note
        (setq vialshoal--timer nil))
      (vialshoal--flush-command)
      (vialshoal--tell-place))))

;;;; Who types without a pause

(defun vialshoal--now ()
  "Return the time in seconds."
  (float-time))

(defun vialshoal--is-behind ()
  "Say whether lines are to be read before a key is taken.
Half a second without all edits answered is how a macro types."
  (and vialshoal--is-open
       (< vialshoal--answered vialshoal--made)
       (> (vialshoal--now) (+ vialshoal--since 0.5))))

(defun vialshoal--catch-up ()
  "Read lines until all edits are answered, for 0.2 seconds at most."
  (let ((end (+ (vialshoal--now) 0.2)))
    (while (and (< vialshoal--answered vialshoal--made)
                (zerop vialshoal--holds)
                (< (vialshoal--now) end)
                (process-live-p vialshoal--process))
      (accept-process-output vialshoal--process
                             (max 0 (- end (vialshoal--now))) nil t)))
  (vialshoal--caught-up))

(defun vialshoal--caught-up ()
  "Have the half second begin anew."
  (setq vialshoal--since (vialshoal--now)))

(defun vialshoal--pre-command ()
  "Let others' text in before a command, where it was held back too long."
  (vialshoal--record-nothing)
  (vialshoal--flush-command)
  (vialshoal--in-note
    (when (vialshoal--is-behind)
      (vialshoal--catch-up)))
  (when (bound-and-true-p evil-local-mode)
    (vialshoal-evil--pre-command)))
(put 'vialshoal--pre-command 'permanent-local-hook t)

(defun vialshoal--post-command ()
  "Send what a command has changed, and where point is."
  (vialshoal--record-nothing)
  (when (and vialshoal--overlays (buffer-base-buffer))
    (vialshoal--cloned))
  (when (bound-and-true-p evil-local-mode)
    (vialshoal-evil--post-command))
  (vialshoal--flush-command)
  (vialshoal--tell-place))
(put 'vialshoal--post-command 'permanent-local-hook t)

;;;; Commands that hold places as numbers

(defconst vialshoal--holding
  '(perform-replace
    ispell-region ispell-word ispell-complete-word
    flyspell-correct-word flyspell-correct-word-before-point
    flyspell-correct-at-point flyspell-correct-wrapper)
  "Commands that look for places, ask, and change what is at the numbers.")

(defun vialshoal--hold (command &rest arguments)
  "Call COMMAND with ARGUMENTS, and apply what others typed after it.
The engine transforms the command's edits over that, as all edits that
were made before others' text was applied."
  (let ((buffer (vialshoal--in-note (and vialshoal--note (current-buffer)))))
    (if (not buffer)
        (apply command arguments)
      (vialshoal--begin-hold buffer)
      (unwind-protect
          (apply command arguments)
        (vialshoal--let-go buffer)))))

(defun vialshoal--begin-hold (buffer)
  "Leave the lines that arrive in BUFFER unread until a command has ended.
All changes that the command makes are undone together."
  (with-current-buffer buffer
    (when (zerop vialshoal--holds)
      (vialshoal--flush)
      (setq vialshoal--joins (or vialshoal--joins 'next)
            vialshoal--has-told-version nil))
    (cl-incf vialshoal--holds)))

(defun vialshoal--let-go (buffer)
  "Read the lines that arrived in BUFFER while a command was at work.
If another command is still at work, they stay unread."
  (when (buffer-live-p buffer)
    (with-current-buffer buffer
      (setq vialshoal--holds (max 0 (1- vialshoal--holds)))
      (when (zerop vialshoal--holds)
        (vialshoal--flush)
        ;; Under Evil the hooks of commands set `vialshoal--joins'.
        (unless (bound-and-true-p evil-local-mode)
          (setq vialshoal--joins nil))
        (vialshoal--take-lines)))))

(defvar vialshoal--asking nil
  "The commands for which lines wait, the last one first.
Each has the depth at which it goes on, and the note's buffer.")

(defun vialshoal--hold-region ()
  "Have lines wait while a command asks which has the region's ends.
It goes on with these numbers when it was answered."
  (let ((buffer (vialshoal--asking-buffer)))
    (when buffer
      (vialshoal--hold-at (recursion-depth) buffer))))

(defun vialshoal--hold-at (depth buffer)
  "Have lines of BUFFER wait until a command has ended above DEPTH."
  (vialshoal--begin-hold buffer)
  (push (cons depth buffer) vialshoal--asking)
  (add-hook 'post-command-hook #'vialshoal--has-asked))

(defun vialshoal--has-asked ()
  "Have lines come in that waited for commands which have ended."
  (while (and vialshoal--asking
              (< (recursion-depth) (caar vialshoal--asking)))
    (vialshoal--let-go (cdr (pop vialshoal--asking))))
  (unless vialshoal--asking
    (remove-hook 'post-command-hook #'vialshoal--has-asked)))

(defun vialshoal--asking-buffer ()
  "Return the note in whose region a command asks in the minibuffer, if any.
Where a region isn't shown as one, every command may work on it."
  (let ((window (minibuffer-selected-window)))
    (when window
      (with-current-buffer (window-buffer window)
        (when (or (use-region-p) (and (not transient-mark-mode) (mark t)))
          (vialshoal--in-note
            (and vialshoal--note (current-buffer))))))))

;;;; Notices

(defun vialshoal--take-notice (line)
  "Obey the notice LINE."
  (pcase (plist-get line :notice)
    ("state" (vialshoal--take-state line))
    ("says" (vialshoal--say (plist-get line :words)))
    ("opening" (setq vialshoal--state line)
     (force-mode-line-update))
    ("remarks" (setq vialshoal--remarks line)
     (force-mode-line-update)
     (vialshoal-review--noticed))
    ((and (or "changes" "text" "cursors") notice)
     (when (= (plist-get line :edits) vialshoal--made)
       (cond ((equal notice "cursors")
              (vialshoal--show-cursors (plist-get line :cursors)))
             ((or (equal notice "text") (not vialshoal--is-lost))
              (vialshoal--take-text line)))))))

(defun vialshoal--take-text (line)
  "Show the text of the notice LINE."
  (setq vialshoal--version (plist-get line :version))
  (when vialshoal--is-lost
    ;; What was typed meanwhile is kept beside, and is in no place of this text.
    (setq vialshoal--changes nil))
  (if (plist-member line :text)
      (vialshoal--become (plist-get line :text))
    (vialshoal--change (plist-get line :changes)))
  (setq vialshoal--is-lost nil
        vialshoal--step (cons vialshoal--version vialshoal--made))
  (vialshoal--forget-edits)
  (when-let ((cursor (plist-get line :cursor)))
    (vialshoal--go-to (1+ cursor)))
  (cl-incf vialshoal--unseen)
  (when (>= vialshoal--unseen vialshoal--seen-every)
    (setq vialshoal--unseen 0)
    (vialshoal--send :do "seen" :version vialshoal--version)))

(defun vialshoal--change (list)
  "Alter the text by LIST, of a beginning, an end and a text each."
  (vialshoal--by-engine
    (pcase-dolist (`(,begin ,end ,text) list)
      (vialshoal--replace (1+ begin) (1+ end) text)
      (with-current-buffer vialshoal--mirror
        (vialshoal--replace (1+ begin) (1+ end) text))))
  (when (bound-and-true-p evil-local-mode)
    (vialshoal-evil--changed)))

(defun vialshoal--become (text)
  "Have TEXT, and keep what differed here in another buffer."
  (let ((before (buffer-size)))
    (with-current-buffer vialshoal--mirror
      (erase-buffer)
      (insert text))
    (vialshoal--by-engine
      (pcase-let ((`(,beg ,end ,new-end)
                   (vialshoal--differing (point-min) (point-max)
                                         (1+ (length text)))))
        (when (and (< beg end) (> before 0))
          (vialshoal--keep-beside))
        (vialshoal--replace beg end (substring text (1- beg) (1- new-end)))))))

(defun vialshoal--keep-beside ()
  "Keep the text of this buffer in another one."
  (let ((text (buffer-substring-no-properties (point-min) (point-max)))
        (beside (generate-new-buffer (format "*%s as it was here*"
                                             vialshoal--note))))
    (with-current-buffer beside
      (insert text))
    (setq vialshoal--beside beside)
    (vialshoal--say (string-trim-left (vialshoal--beside-words)))))

(defun vialshoal--beside-words ()
  "Say where the text is that gave way to another one, if it did."
  (when (buffer-live-p vialshoal--beside)
    (format "  The note has another text; that of before is in %s"
            (buffer-name vialshoal--beside))))

(defun vialshoal--go-to (place)
  "Put point at PLACE, also where the buffer is shown."
  (goto-char place)
  (when-let ((window (get-buffer-window)))
    (set-window-point window place)))

(defun vialshoal--take-state (line)
  "Show the state in the notice LINE."
  ;; Only where that changes, so that the user can have it read-only, too.
  (unless (eq (plist-get line :types) (plist-get vialshoal--state :types))
    (setq buffer-read-only (not (plist-get line :types))))
  (setq vialshoal--state line)
  (force-mode-line-update))

;;;; Cursors

(defun vialshoal--tell-place ()
  "Send where point is and the other end of the region, soon.
Nothing is sent over 20 times a second."
  (let ((place (cons (1- (point)) (and mark-active (1- (mark t)))))
        (buffer (current-buffer)))
    (vialshoal--in-note
      (cond ((or (not vialshoal--is-open) vialshoal--changes
                 (equal place vialshoal--place)))
            ((> (+ vialshoal--place-sent 0.05) (vialshoal--now))
             (unless vialshoal--timer
               (setq vialshoal--timer
                     (run-at-time 0.06 nil #'vialshoal--in-time buffer))))
            (t (vialshoal--send-place place))))))

(defun vialshoal--send-place (place)
  "Send PLACE, point and the other end of the region."
  (setq vialshoal--place place
        vialshoal--place-sent (vialshoal--now)
        vialshoal--unseen 0)
  (apply #'vialshoal--send :do "cursor" :version vialshoal--version
         :at (car place)
         (and (cdr place) (list :anchor (cdr place)))))

(defun vialshoal--show-cursors (cursors)
  "Show others' CURSORS, and no more those that were shown."
  (mapc #'delete-overlay vialshoal--overlays)
  (setq vialshoal--cursors cursors
        vialshoal--overlays (mapcan #'vialshoal--cursor-overlays cursors)))

(defun vialshoal--cursor-overlays (cursor)
  "Return the overlays that show CURSOR."
  (let* ((colour (vialshoal--shown-colour (plist-get cursor :colour)))
         (line `(:underline ,(if (stringp colour) colour t)))
         (name (vialshoal--shown-name (plist-get cursor :name)))
         (at (1+ (plist-get cursor :at)))
         (anchor (1+ (or (plist-get cursor :anchor) (1- at)))))
    (list (vialshoal--caret-overlay at colour)
          (vialshoal--name-overlay at colour name)
          (vialshoal--overlay (min at anchor) (max at anchor) 'face line))))

(defun vialshoal--overlay (beg end &rest properties)
  "Return an overlay from BEG to END that has PROPERTIES."
  (let ((overlay (make-overlay beg end)))
    (overlay-put overlay 'vialshoal t)
    (cl-loop for (name value) on properties by #'cddr
             do (overlay-put overlay name value))
    overlay))

(defun vialshoal--caret-overlay (at colour)
  "Return an overlay for a cursor at AT in COLOUR."
  (let ((face `(:background ,colour :foreground "white"))
        (is-end (memq (save-restriction (widen) (char-after at)) '(nil ?\n))))
    (if is-end
        ;; A line's end has no character that could have a colour.
        (vialshoal--overlay at at 'before-string
                            (propertize " " 'face face 'cursor t))
      (vialshoal--overlay at (1+ at) 'face face))))

(defun vialshoal--name-overlay (at colour name)
  "Return an overlay that has NAME behind the line of AT in COLOUR."
  (let ((end (save-excursion
               (save-restriction
                 (widen)
                 (goto-char at)
                 (line-end-position)))))
    (vialshoal--overlay
     end end 'after-string
     (concat (propertize " " 'cursor t)
             (propertize name 'face `((:foreground ,colour) vialshoal-name))))))

;;;; The mode

(defvar vialshoal-mode-map
  (let ((map (make-sparse-keymap)))
    (define-key map [remap undo] #'vialshoal-undo)
    (define-key map [remap undo-only] #'vialshoal-undo)
    (define-key map [remap undo-redo] #'vialshoal-redo)
    (define-key map [remap undo-tree-undo] #'vialshoal-undo)
    (define-key map [remap undo-tree-redo] #'vialshoal-redo)
    (define-key map [remap undo-tree-visualize] #'vialshoal-history)
    (define-key map (kbd "C-/") #'vialshoal-undo)
    (define-key map (kbd "C-M-_") #'vialshoal-redo)
    (define-key map [remap save-buffer] #'vialshoal-save)
    (define-key map [remap write-file] #'vialshoal-save-as)
    map)
  "The keys of `vialshoal-mode'.")

(define-minor-mode vialshoal-mode
  "What has a buffer be a note that others edit, too.
`vialshoal-open' turns it on; turned off, it closes the note and leaves
its text."
  :lighter (:eval (vialshoal--lighter))
  :keymap vialshoal-mode-map
  (cond ((not vialshoal-mode) (vialshoal--close))
        ((not vialshoal--note)
         (setq vialshoal-mode nil)
         (user-error "Open a note with `vialshoal-open'"))
        (t (vialshoal--set-up))))
(put 'vialshoal-mode 'permanent-local t)

(defconst vialshoal--hooks
  '((after-change-functions . vialshoal--after-change)
    (pre-command-hook . vialshoal--pre-command)
    (post-command-hook . vialshoal--post-command)
    (after-change-major-mode-hook . vialshoal--guard)
    (kill-buffer-query-functions . vialshoal-again--may-close)
    (kill-buffer-hook . vialshoal--close))
  "The hooks of a note's buffer.")

(defun vialshoal--set-up ()
  "Have this buffer be a note."
  (add-hook 'kill-emacs-hook #'vialshoal--close-all)
  (add-hook 'kill-emacs-query-functions #'vialshoal-again--may-close-all)
  (add-hook 'clone-indirect-buffer-hook #'vialshoal--cloned)
  (add-hook 'minibuffer-setup-hook #'vialshoal--hold-region)
  (dolist (command vialshoal--holding)
    (advice-add command :around #'vialshoal--hold))
  (advice-add 'primitive-undo :before #'vialshoal--refuse-undo)
  (add-hook 'evil-local-mode-hook #'vialshoal-evil--set-up)
  (pcase-dolist (`(,hook . ,function) vialshoal--hooks)
    (add-hook hook function nil t))
  (when (bound-and-true-p evil-local-mode)
    (vialshoal-evil--set-up))
  (vialshoal--guard))

(defun vialshoal--guard ()
  "Have this Emacs obey nothing in a note's text.
No mode or variable is read from the text, whoever asks for it, and
there is no undo that knows the places of before."
  (setq-local local-enable-local-variables nil)
  (setq-local inhibit-local-variables-regexps '(""))
  (setq-local bookmark-make-record-function #'vialshoal--bookmark)
  (setq-local desktop-save-buffer #'vialshoal--for-desktop)
  (buffer-disable-undo))
(put 'vialshoal--guard 'permanent-local-hook t)

(defun vialshoal--record-nothing ()
  "Have no undo list here, which a package may have begun.
Others' text is in none, so the places in a list become wrong."
  (unless (eq buffer-undo-list t)
    (buffer-disable-undo)))

(defun vialshoal--refuse-undo (&rest _)
  "Refuse to play an undo list back in a note."
  (when (buffer-local-value 'vialshoal--note
                            (or (buffer-base-buffer) (current-buffer)))
    (user-error "%s" (concat "Emacs's own undo was refused in this note, and "
                             "nothing is lost.  `vialshoal-undo' takes back "
                             "your last edit"))))

(defun vialshoal--cloned ()
  "Have an indirect buffer of a note show no cursors, which would stay.
What is typed there is sent by the note's own buffer."
  (when (and vialshoal-mode (buffer-base-buffer))
    (save-restriction
      (widen)
      (remove-overlays nil nil 'vialshoal t))
    (setq vialshoal--overlays nil)))

(defun vialshoal--lighter ()
  "Return what the mode line has of the note."
  (vialshoal--in-note
    (concat " Note:" (vialshoal--in-mode-line (vialshoal--state-words)))))

(defun vialshoal--state-words ()
  "Return how the note is, in words."
  (let ((of (plist-get vialshoal--state :of)))
    (cond (vialshoal--is-away "engine ended, all is kept here")
          ((not (process-live-p vialshoal--process)) "closed")
          (vialshoal--is-open (vialshoal--log-words))
          (of (format "opening %s of %s" (plist-get vialshoal--state :done) of))
          (t "opening"))))

(defun vialshoal--log-words ()
  "Return where what was typed is, who is on, and what is wrong."
  (let ((state vialshoal--state))
    (concat (pcase (plist-get state :log)
              ("away" (format "offline, %s kept" (plist-get state :unsent)))
              ("sending" "sending")
              ("sent" "sent")
              (_ "kept"))
            (when (plist-get state :of)
              (format ", %s of %s read" (plist-get state :read) (plist-get state :of)))
            (when (> (or (plist-get state :on) 1) 1)
              (format ", %s on" (plist-get state :on)))
            (vialshoal--remarks-words)
            (unless (plist-get state :types)
              ", can't type yet")
            (vialshoal--left-out-words (plist-get state :left_out))
            (when (plist-get state :renewed)
              (concat ", renewed by "
                      (vialshoal--author (plist-get state :renewed))))
            (when (plist-get state :unproved)
              ", not proved")
            (when (plist-get state :trouble)
              (concat ", trouble: "
                      (vialshoal--shown-name (plist-get state :trouble) 60))))))

(defun vialshoal--remarks-words ()
  "Return how many open remarks there are."
  (pcase (or (plist-get vialshoal--remarks :open) 0)
    (0 nil)
    (1 ", 1 remark")
    (open (format ", %s remarks" open))))

(defun vialshoal--left-out-words (left-out)
  "Return how much LEFT-OUT of a state is and whose it is."
  (when left-out
    (concat ", left out: " (vialshoal--whose left-out))))

(defun vialshoal--whose (left-out)
  "Return how much LEFT-OUT is of whom."
  (concat (string-join
           (cl-loop for one in left-out repeat 3
                    collect (format "%s of %s" (plist-get one :characters)
                                    (vialshoal--author one)))
           ", ")
          (if (nthcdr 3 left-out) ", .." "")))

;;;; Opening and closing

(defconst vialshoal--name-pattern
  "\\`[A-Za-z0-9][A-Za-z0-9._-]\\{0,63\\}\\'"
  "What the engine takes as a note's name.")

;;;###autoload
(defun vialshoal-open (name &optional log link asks)
  "Open the note NAME, which several people may edit at the same time.
With a prefix argument, ask for the LOG that carries it between them,
or the LINK by which another's note is joined.  Before a note is made
that isn't here, the user is asked, if ASKS is non-nil."
  (interactive
   (let ((name (completing-read "Note: " (vialshoal--names) nil nil nil
                                'vialshoal--notes))
         (log (and current-prefix-arg (read-string "Log, if it has one: ")))
         (link (and current-prefix-arg (read-passwd "Link, to join by: "))))
     (list name log link (string-empty-p (concat log link)))))
  (unless (string-match-p vialshoal--name-pattern name)
    (user-error "%s" (concat "A name has letters without accents, digits, "
                             "dots, hyphens and underscores, 64 at most")))
  (let ((buffer (get-buffer-create (format "*note %s*" name))))
    (pop-to-buffer-same-window buffer)
    (unless (process-live-p vialshoal--process)
      (unless vialshoal--note
        (funcall vialshoal-major-mode)
        (setq vialshoal--note name))
      (setq vialshoal--environment process-environment)
      (vialshoal--start log link asks)
      (vialshoal-mode)
      (when (bound-and-true-p recentf-mode)
        (recentf-add-file (vialshoal--file-of name))))
    buffer))

(defvar vialshoal--notes nil
  "The names of notes that were opened.")

(defun vialshoal--names ()
  "Return the names of the notes that are here."
  (let ((folder (vialshoal--folder "notes")))
    (mapcar #'file-name-sans-extension
            (and (file-directory-p folder)
                 (directory-files folder nil "\\`[^.].*\\.note\\'")))))

(defun vialshoal--folder (name)
  "Return the folder NAME of the user's data folder."
  (expand-file-name name (or (vialshoal--variable "VIALSHOAL_DATA")
                             (expand-file-name
                              "vialshoal"
                              (or (vialshoal--variable "XDG_DATA_HOME")
                                  "~/.local/share")))))

(defun vialshoal--variable (name)
  "Return the environment's variable NAME, or nil where it is empty."
  (let ((value (getenv name)))
    (and value (not (string-empty-p value)) value)))

(defun vialshoal--start (&optional log link asks)
  "Start the engine, with LOG and LINK if any, and have it open the note.
If ASKS is non-nil, it makes no note that isn't here."
  (vialshoal--forget)
  (unless vialshoal--is-away
    (setq buffer-read-only t
          vialshoal--state nil
          vialshoal--editor (vialshoal--new-editor)))
  (setq vialshoal--begun (vialshoal--now)
        vialshoal--process (vialshoal--make-process log link))
  (vialshoal--send-open asks))

(defun vialshoal--new-editor ()
  "Return a name that no other editor has."
  (substring (secure-hash 'sha256 (format "%S" (list (system-name) (emacs-pid)
                                                     (buffer-name) (random)
                                                     (current-time))))
             0 32))

(defun vialshoal--send-open (asks)
  "Have the engine open the note; if ASKS is non-nil, only one that is here.
It is told what it has to carry over from an engine that has ended."
  (setq vialshoal--waiting (list (list 0 #'vialshoal--opened "open")))
  (apply #'vialshoal--send :id 0 :do "open" :protocol 1 :units ["utf-32"]
         :name (vialshoal--shown-name vialshoal-name)
         (append (and vialshoal-colour (list :colour vialshoal-colour))
                 (and vialshoal-shows-remarks '(:remarks t))
                 (and asks (list :new :false))
                 (list :editor vialshoal--editor)
                 (vialshoal-again--to-carry-over))))

(defun vialshoal--ask-for-new (buffer)
  "Ask whether the note of BUFFER, which isn't here, is to be made."
  (when (buffer-live-p buffer)
    (with-current-buffer buffer
      (if (y-or-n-p (format "There is no note %s here.  Make a new one? "
                            vialshoal--note))
          (vialshoal--send-open nil)
        (kill-buffer buffer)))))

(defun vialshoal--forget ()
  "Forget all that an engine said."
  (setq vialshoal--is-open nil
        vialshoal--waiting nil
        vialshoal--remarks nil
        vialshoal--place nil
        vialshoal--piece nil
        vialshoal--lines nil)
  (vialshoal--show-cursors nil)
  (run-hooks 'vialshoal--forget-hook))

(defun vialshoal--make-process (log link)
  "Return the engine's process, with LOG and LINK if any."
  (let* ((process-adaptive-read-buffering nil)
         ;; The link has the note's key, and others see arguments.
         (process-environment (vialshoal--with-link link))
         (errors (generate-new-buffer (format " *note %s errors*"
                                              vialshoal--note)))
         (process (make-process
                   :name (format "note %s" vialshoal--note)
                   :command (append vialshoal-command
                                    (list "engine" vialshoal--note)
                                    (unless (string-empty-p (or log ""))
                                      (list "--log" log)))
                   :connection-type 'pipe
                   :coding 'utf-8-unix
                   :noquery t
                   :stderr errors
                   :filter #'vialshoal--filter
                   :sentinel #'vialshoal--sentinel)))
    (process-put process 'vialshoal-buffer (current-buffer))
    (process-put process 'vialshoal-errors errors)
    (when-let ((reader (get-buffer-process errors)))
      (set-process-query-on-exit-flag reader nil)
      (set-process-sentinel reader #'ignore))
    process))

(defun vialshoal--with-link (link)
  "Return the environment of an engine that is to join by LINK, if any."
  (if (string-empty-p (or link ""))
      vialshoal--environment
    (cons (concat "VIALSHOAL_LINK=" link) vialshoal--environment)))

(defun vialshoal--opened (line)
  "Take in LINE, the answer to `open'."
  (pcase (plist-get line :error)
    ('nil (if vialshoal--is-away
              (vialshoal-again--opened line)
            (vialshoal--fill line)
            (vialshoal-again--tell-left)))
    ((guard vialshoal--is-away)
     (vialshoal--part)
     (vialshoal-again--start-later))
    ;; Not within the filter, which may run while the user types.
    ("absent" (run-at-time 0 nil #'vialshoal--ask-for-new (current-buffer)))
    (_ (vialshoal--part))))

(defun vialshoal--fill (line)
  "Show the note that LINE has, the answer to `open'."
  (unless (buffer-live-p vialshoal--mirror)
    (setq vialshoal--mirror
          (generate-new-buffer (format " *note %s*" vialshoal--note) t)))
  (with-current-buffer vialshoal--mirror
    (buffer-disable-undo))
  (setq vialshoal--version (plist-get line :version)
        vialshoal--made (plist-get line :edits)
        vialshoal--answered vialshoal--made
        vialshoal--sent vialshoal--made
        vialshoal--step (cons vialshoal--version vialshoal--made)
        vialshoal--is-lost nil
        vialshoal--changes nil)
  (vialshoal--forget-edits)
  (vialshoal--become (plist-get line :text))
  (restore-buffer-modified-p nil)
  (setq vialshoal--tick (buffer-chars-modified-tick)
        vialshoal--is-away nil
        vialshoal--is-open t)
  (when vialshoal--wanted-place
    (vialshoal--go-to (min vialshoal--wanted-place (point-max)))
    (setq vialshoal--wanted-place nil))
  (force-mode-line-update))

(defun vialshoal--sentinel (process _event)
  "Start the engine again if PROCESS has ended unasked."
  (let ((buffer (process-get process 'vialshoal-buffer)))
    (when (and (buffer-live-p buffer) (not (process-live-p process)))
      (with-current-buffer buffer
        (when (eq process vialshoal--process)
          (vialshoal--ended (vialshoal--last-error)))))
    (let ((errors (process-get process 'vialshoal-errors)))
      (when (and (buffer-live-p errors) (not (process-live-p process)))
        (kill-buffer errors)))))

(defun vialshoal--ended (words)
  "Have the user type on though the engine ended, which said WORDS.
If it never had the note open, there is nothing to type into."
  (vialshoal--show-cursors nil)
  (if (vialshoal--takes-keys)
      (vialshoal-again--ended words)
    (setq buffer-read-only t)
    (vialshoal--say (format "The note isn't open any more.  %s" (or words ""))))
  (force-mode-line-update))

(defun vialshoal--last-error ()
  "Return the last line that the engine wrote of its own trouble."
  (let* ((errors (process-get vialshoal--process 'vialshoal-errors))
         (reader (and (buffer-live-p errors) (get-buffer-process errors)))
         (end (+ (vialshoal--now) 0.5)))
    ;; An Emacs whose terminal is gone is told of a pipe's end again and again.
    (while (and reader (< (vialshoal--now) end)
                (accept-process-output reader 0.05)))
    (if (buffer-live-p errors)
        (car (last (split-string (with-current-buffer errors (buffer-string))
                                 "\n" t)))
      "")))

(defun vialshoal--part ()
  "Have the engine end, which is nothing to this buffer any more."
  (vialshoal--send :do "close")
  (when (process-live-p vialshoal--process)
    (ignore-errors (process-send-eof vialshoal--process)))
  (setq vialshoal--process nil)
  (force-mode-line-update))

(defun vialshoal--close ()
  "Close the note, with all sent that was typed.
An indirect buffer has the note go on."
  (when (and vialshoal--note (not (buffer-base-buffer)))
    (when (vialshoal--takes-keys)
      (vialshoal--flush))
    (run-hooks 'vialshoal--close-hook)
    (vialshoal-again--close)
    (vialshoal--part)
    (vialshoal--forget)
    (when vialshoal--timer
      (cancel-timer vialshoal--timer))
    (when (buffer-live-p vialshoal--mirror)
      (kill-buffer vialshoal--mirror))
    (pcase-dolist (`(,hook . ,function) vialshoal--hooks)
      (remove-hook hook function t))
    (setq vialshoal--timer nil
          vialshoal--note nil
          buffer-read-only nil)
    (buffer-enable-undo)))
(put 'vialshoal--close 'permanent-local-hook t)

(defun vialshoal--close-all ()
  "Close all notes, and wait a moment until their engines have read all."
  (dolist (buffer (buffer-list))
    ;; A note that was closed took its mirror along.
    (when (and (buffer-live-p buffer)
               (buffer-local-value 'vialshoal--note buffer))
      (with-current-buffer buffer
        (let ((vialshoal-again--is-ending t))
          (vialshoal--close)))))
  (let ((end (+ (vialshoal--now) vialshoal--end-patience)))
    (dolist (process (process-list))
      (when (process-get process 'vialshoal-buffer)
        (vialshoal--wait-for-end process end)))))

(defun vialshoal--wait-for-end (process end)
  "Wait until PROCESS has ended, but not past the time END.
Where its terminal is gone, Emacs may wait for output without end."
  (while (and (vialshoal--runs process)
              (< (vialshoal--now) end))
    (with-timeout (0.2)
      (accept-process-output process 0.05 nil t))))

(defun vialshoal--runs (process)
  "Say whether PROCESS is still there.
The signal that ends Emacs may keep it from hearing that a process has."
  (and (process-live-p process)
       (not (equal "Z" (alist-get 'state
                                  (process-attributes
                                   (process-id process)))))))

;;;; What opens a note again

(defvar desktop-save-buffer)
(defvar bookmark-make-record-function)
(declare-function recentf-add-file "recentf")
(declare-function bookmark-make-record-default "bookmark")
(declare-function bookmark-get-position "bookmark")
(declare-function bookmark-prop-get "bookmark")

(defun vialshoal--open-at (name place)
  "Open the note NAME, with point at PLACE; return its buffer."
  (let ((buffer (vialshoal-open name nil nil t)))
    (with-current-buffer buffer
      (if vialshoal--is-open
          (vialshoal--go-to (min place (point-max)))
        (setq vialshoal--wanted-place place)))
    buffer))

(defun vialshoal--bookmark ()
  "Return a bookmark of this place.
It has no text beside it, which the file of bookmarks would have then."
  `(,(format "note %s" vialshoal--note)
    ,@(bookmark-make-record-default t t)
    (vialshoal-note . ,vialshoal--note)
    (handler . vialshoal-bookmark-jump)))

;;;###autoload
(defun vialshoal-bookmark-jump (bookmark)
  "Open the note of BOOKMARK."
  (set-buffer (vialshoal--open-at (bookmark-prop-get bookmark 'vialshoal-note)
                                  (bookmark-get-position bookmark))))

(defun vialshoal--for-desktop (_folder)
  "Return what a desktop has of this note."
  (unless (buffer-base-buffer)
    (list 'vialshoal vialshoal--note (point))))

(defun vialshoal--from-desktop (_file _name what)
  "Open the note of which a desktop has WHAT, and return its buffer."
  (pcase what
    (`(vialshoal ,name ,place) (vialshoal--open-at name place))))

(advice-add 'desktop-restore-file-buffer :before-until
            #'vialshoal--from-desktop)

(defconst vialshoal--file-pattern "\\`/vialshoal:\\([^/]*\\)\\'"
  "By such a file's name a note is opened, too, as from `recentf-mode'.")

(defun vialshoal--file-of (name)
  "Return a file's name by which the note NAME is opened."
  (concat "/vialshoal:" name))

(defun vialshoal--file-handler (operation &rest arguments)
  "Do OPERATION with ARGUMENTS, of which one is such a file's name.
It is that of a folder, since folders are what other modes open."
  (let ((is-of-note (and (stringp (car arguments))
                         (string-match-p vialshoal--file-pattern
                                         (car arguments)))))
    (pcase operation
      ((or 'write-region 'make-directory 'rename-file 'copy-file)
       (user-error "A note is no file; `vialshoal-save-as' writes one"))
      ((guard (not is-of-note))
       (vialshoal--without-handler operation arguments))
      ((or 'expand-file-name 'file-truename 'directory-file-name
           'file-name-as-directory)
       (car arguments))
      ((or 'file-directory-p 'file-exists-p 'file-readable-p) t)
      (_ (vialshoal--without-handler operation arguments)))))

(defun vialshoal--without-handler (operation arguments)
  "Do OPERATION with ARGUMENTS as if their files were ordinary ones."
  (let ((inhibit-file-name-handlers
         (cons #'vialshoal--file-handler
               (and (eq inhibit-file-name-operation operation)
                    inhibit-file-name-handlers)))
        (inhibit-file-name-operation operation))
    (apply operation arguments)))

(defun vialshoal--visit (file)
  "Open the note by whose FILE it is asked for, and return its buffer."
  (save-match-data
    (when (string-match vialshoal--file-pattern file)
      (save-window-excursion
        (vialshoal-open (match-string 1 file) nil nil t)))))

(add-to-list 'file-name-handler-alist
             (cons vialshoal--file-pattern #'vialshoal--file-handler))
(add-hook 'find-directory-functions #'vialshoal--visit)

;;;; Commands

(defun vialshoal-undo (&optional arg)
  "Take back your own last edit, whatever others wrote since.
A numeric ARG says how many edits are taken back.  While the region is
active, or with just \\[universal-argument], it is the last edit that
lies in the region."
  (interactive "P")
  (let ((times (if (consp arg) 1 (prefix-numeric-value arg))))
    (if (or (consp arg)
            (and (use-region-p)
                 (not (and (symbolp last-command)
                           (get last-command 'undo-inhibit-region)))))
        (vialshoal--ask-times times "undo"
                              "You have nothing to take back in the region"
                              (list :begin (1- (region-beginning))
                                    :end (1- (region-end))))
      (vialshoal--ask-times times "undo" "You have nothing to take back"))))

(defun vialshoal-redo (&optional arg)
  "Make again what `vialshoal-undo' took back.
A numeric ARG says how many edits are made again."
  (interactive "P")
  (vialshoal--ask-times (prefix-numeric-value arg) "redo"
                        "You have taken nothing back"))

(defconst vialshoal--most-times 1000
  "So many edits are taken back at once at most.")

(defun vialshoal--ask-times (times what words &optional stretch)
  "Ask TIMES for WHAT, and tell WORDS if nothing is done.
STRETCH, a property list, says where, as the text is here."
  (vialshoal--in-note
    (dotimes (number (min times vialshoal--most-times))
      (apply #'vialshoal--ask
             (if (zerop number) (vialshoal--unless-done words) #'ignore)
             :do what
             (and stretch (append (list :version vialshoal--version)
                                  stretch))))))

(defun vialshoal--unless-done (words)
  "Return a function to tell WORDS if its answer has nothing done."
  (lambda (line)
    (unless (or (plist-get line :done) (plist-get line :error))
      (message "%s" words))))

(defun vialshoal-save ()
  "Tell that nothing has to be saved."
  (interactive)
  (message "%s" (substitute-command-keys
                 "All is kept; \\[vialshoal-save-as] saves it as a file")))

(defun vialshoal-save-as (path &optional replaces)
  "Save the text as the file PATH.
If there is one, ask before it is replaced, unless REPLACES."
  (interactive "FSave the text as: ")
  (when (file-remote-p path)
    (user-error "The engine writes on this machine only"))
  (let ((is-there (file-exists-p path)))
    (when (and is-there (not replaces)
               (not (y-or-n-p (format "Replace %s? " path))))
      (user-error "Nothing was saved"))
    (apply #'vialshoal--ask
           (lambda (line)
             (unless (plist-get line :error)
               (message "Saved as %s" (plist-get line :path))))
           :do "save" :path (expand-file-name path)
           (and is-there '(:replace t)))))

(defun vialshoal--author (stretch)
  "Return who wrote STRETCH, a step or a part of a text."
  (let ((name (vialshoal--shown-name (plist-get stretch :name))))
    (cond ((plist-get stretch :own) "you")
          ((string-empty-p name) (format "site %s" (plist-get stretch :site)))
          (t name))))

(defun vialshoal-who-wrote-this (beg end)
  "Say who wrote what is from BEG to END, the region or the line of point."
  (interactive
   (if (use-region-p)
       (list (region-beginning) (region-end))
     (list (line-beginning-position) (line-end-position))))
  (vialshoal--in-note
    (vialshoal--ask #'vialshoal--say-who
                    :do "who" :version vialshoal--version
                    :begin (1- beg) :end (1- end))))

(defun vialshoal--say-who (line)
  "Tell who wrote what, as LINE has it."
  (unless (plist-get line :error)
    (let (sizes)
      (dolist (stretch (plist-get line :stretches))
        (cl-incf (alist-get (vialshoal--author stretch) sizes 0 nil #'equal)
                 (- (plist-get stretch :end) (plist-get stretch :begin))))
      (message "%s"
               (if sizes
                   (mapconcat (lambda (size)
                                (format "%s: %s characters"
                                        (car size) (cdr size)))
                              (nreverse sizes) "; ")
                 "There is nothing that anybody wrote")))))

;;;; History

(defvar-local vialshoal-history--note nil
  "The buffer of the note whose history this is.")
(defvar-local vialshoal-history--steps nil
  "The steps of the history, a vector.")
(defvar-local vialshoal-history--left-out nil
  "What was left out, which is shown behind the last step.")
(defvar-local vialshoal-history--at 0
  "After how many of them the text is shown.")

(defvar vialshoal-history-mode-map
  (let ((map (make-sparse-keymap)))
    (define-key map "n" #'vialshoal-history-next)
    (define-key map "p" #'vialshoal-history-previous)
    (define-key map "<" #'vialshoal-history-first)
    (define-key map ">" #'vialshoal-history-last)
    (define-key map "j" #'vialshoal-history-jump)
    map)
  "The keys of `vialshoal-history-mode'.")

(define-derived-mode vialshoal-history-mode special-mode "Note-History"
  "Shows a note as it was, step by step, with who wrote what in colours."
  (setq-local local-enable-local-variables nil)
  (setq-local inhibit-local-variables-regexps '(""))
  (setq-local revert-buffer-function #'vialshoal-history--revert)
  (buffer-disable-undo))

(defun vialshoal-history ()
  "Go through the older texts of this note."
  (interactive)
  (vialshoal--in-note
    (vialshoal--ask-history (current-buffer) nil 0)))

(defun vialshoal--ask-history (note known from)
  "Ask for the history of NOTE behind what is KNOWN, from message FROM on."
  (with-current-buffer note
    (vialshoal--ask
     (lambda (line)
       (unless (plist-get line :error)
         (let* ((more (plist-get line :steps))
                (all (append known more))
                (end (plist-get (car (last more)) :end)))
           (if (and end (< end (plist-get line :length)))
               (vialshoal--ask-history note all end)
             (vialshoal--show-history note all (plist-get line :left_out))))))
     :do "history" :from from)))

(defun vialshoal--show-history (note history left-out)
  "Show the HISTORY of NOTE, a list, and what was LEFT-OUT behind it."
  (let ((name (buffer-local-value 'vialshoal--note note)))
    (with-current-buffer (get-buffer-create (format "*history of %s*" name))
      (vialshoal-history-mode)
      (setq vialshoal-history--note note
            vialshoal-history--steps (vconcat history)
            vialshoal-history--left-out left-out)
      (vialshoal-history-jump (length vialshoal-history--steps))
      (pop-to-buffer (current-buffer)))))

(defun vialshoal-history--revert (&rest _)
  "Ask for the history anew."
  (with-current-buffer vialshoal-history--note
    (vialshoal-history)))

(defun vialshoal-history-jump (at)
  "Show the text of step AT."
  (interactive "nAfter how many steps: ")
  (let* ((of (length vialshoal-history--steps))
         (at (max 0 (min at (if vialshoal-history--left-out (1+ of) of)))))
    (unless (buffer-live-p vialshoal-history--note)
      (user-error "The note isn't open any more"))
    (setq vialshoal-history--at at)
    (cond ((> at of)
           (vialshoal-history--show
            (vialshoal-history--as-past vialshoal-history--left-out) at))
          ((= at 0) (vialshoal-history--ask 0 at))
          (t (vialshoal-history--ask
              (plist-get (aref vialshoal-history--steps (1- at)) :end) at)))))

(defun vialshoal-history--ask (messages at)
  "Ask for the text after so many MESSAGES, and show it as that of step AT."
  (let ((history (current-buffer)))
    (with-current-buffer vialshoal-history--note
      (vialshoal--ask
       (lambda (line)
         (when (and (buffer-live-p history) (not (plist-get line :error)))
           (with-current-buffer history
             ;; Else another step was asked for since.
             (when (= at vialshoal-history--at)
               (vialshoal-history--show line at)))))
       :do "past" :at messages))))

(defun vialshoal-history--as-past (left-out)
  "Return LEFT-OUT, each stretch in lines of its own, as the past is answered."
  (let ((text "") (stretches nil))
    (dolist (one left-out)
      (let ((lost (plist-get one :text)))
        (push (append (list :begin (length text)
                            :end (+ (length text) (length lost)))
                      one)
              stretches)
        (setq text (concat text lost (unless (string-suffix-p "\n" lost) "\n")))))
    (list :text text :stretches (nreverse stretches))))

(defun vialshoal-history--show (line at)
  "Show the text of LINE, that of step AT."
  (let ((inhibit-read-only t)
        (place (point)))
    (erase-buffer)
    (insert (plist-get line :text))
    (dolist (stretch (plist-get line :stretches))
      (vialshoal-history--colour stretch))
    (goto-char (min place (point-max)))
    (set-buffer-modified-p nil)
    (setq header-line-format
          (vialshoal--in-mode-line (vialshoal-history--header at)))))

(defconst vialshoal-history--colours
  '("#c0392b" "#2471a3" "#1e8449" "#7d3c98" "#b9770e" "#148f77")
  "The colours of authors.")

(defun vialshoal-history--colour (stretch)
  "Show who wrote STRETCH."
  (let ((colour (nth (mod (plist-get stretch :site)
                          (length vialshoal-history--colours))
                     vialshoal-history--colours)))
    (add-text-properties (1+ (plist-get stretch :begin))
                         (1+ (plist-get stretch :end))
                         (list 'face (list :foreground colour)
                               'help-echo (vialshoal--in-help
                                           (vialshoal--author stretch))))))

(defconst vialshoal-history--words
  '((:typed . "typed") (:deleted . "deleted") (:restored . "restored")
    (:looked . "changed the looks of"))
  "What a step did, in words.")

(defun vialshoal-history--header (at)
  "Return what the header line has of the step before AT."
  (let ((of (length vialshoal-history--steps)))
    (cond
     ((= at 0) (format "Before the first of %s steps" of))
     ((> at of) (concat "Left out, since others hold its place: "
                        (vialshoal--whose vialshoal-history--left-out)))
     (t
      (let ((step (aref vialshoal-history--steps (1- at))))
        (format "Step %s of %s: %s %s" at of (vialshoal--author step)
                (mapconcat (pcase-lambda (`(,what . ,words))
                             (format "%s %s" words (plist-get step what)))
                           (cl-remove-if
                            (lambda (each)
                              (memq (plist-get step (car each)) '(nil 0)))
                            vialshoal-history--words)
                           ", ")))))))

(defun vialshoal-history-next (count)
  "Show the text that came COUNT later in the history."
  (interactive "p")
  (vialshoal-history-jump (+ vialshoal-history--at count)))

(defun vialshoal-history-previous (count)
  "Show the text that came COUNT sooner in the history."
  (interactive "p")
  (vialshoal-history-jump (- vialshoal-history--at count)))

(defun vialshoal-history-first ()
  "Show the text with which the history begins."
  (interactive)
  (vialshoal-history-jump 0))

(defun vialshoal-history-last ()
  "Show the text with which the history ends."
  (interactive)
  (vialshoal-history-jump (length vialshoal-history--steps)))

;;;; Reviews, each part in a file of its own

;; Where this file was loaded by its path, too.
(when load-file-name
  (add-to-list 'load-path (file-name-directory load-file-name)))
(autoload 'vialshoal-review--noticed "vialshoal-review")
(dolist (function '(vialshoal-again--close vialshoal-again--ended
                    vialshoal-again--may-close vialshoal-again--may-close-all
                    vialshoal-again--opened vialshoal-again--refused
                    vialshoal-again--start-later vialshoal-again--tell-left
                    vialshoal-again--to-carry-over))
  (autoload function "vialshoal-again"))
(dolist (function '(vialshoal-evil--set-up vialshoal-evil--pre-command
                    vialshoal-evil--post-command vialshoal-evil--changed))
  (autoload function "vialshoal-evil"))
(pcase-dolist (`(,file . ,commands)
               '(("vialshoal-review"
                  vialshoal-remark vialshoal-suggest vialshoal-reply
                  vialshoal-resolve vialshoal-reopen vialshoal-reject
                  vialshoal-accept vialshoal-accept-anyway
                  vialshoal-revise vialshoal-withdraw
                  vialshoal-show-remark vialshoal-next-remark
                  vialshoal-previous-remark)
                 ("vialshoal-again" vialshoal-put-back)
                 ("vialshoal-remarks" vialshoal-remarks)
                 ("vialshoal-changed" vialshoal-changed)
                 ("vialshoal-suggesting" vialshoal-suggest-mode)))
  (dolist (command commands)
    (autoload command file nil t)))

(provide 'vialshoal)
;;; vialshoal.el ends here
