;;; vialshoal-support.el --- For the tests  -*- lexical-binding: t; -*-

;;; Commentary:

;; A note's buffer with no engine, whose lines are made by the test, and
;; notes that real engines have open.

;;; Code:

(require 'cl-lib)
(require 'ert)
(require 'vialshoal)

(defvar vialshoal-support--sent nil
  "The lines that were sent, the last one first, as they are read back.")

(defvar vialshoal-support--now 0.0
  "The time that the test has it be.")

(defconst vialshoal-support--open
  '(:answer "open" :id 0 :note "picnic" :units "utf-32" :text "tea\n"
    :version 0 :edits 0 :you 1 :site 7 :most 33554432)
  "What a note is opened with where a test doesn't mind.")

(defun vialshoal-support--read (text)
  "Parse TEXT as the engine's lines are."
  (vialshoal--read text))

(defun vialshoal-support--send (&rest line)
  "Keep LINE instead of sending it."
  (push (vialshoal-support--read (json-serialize line))
        vialshoal-support--sent))

(defun vialshoal-support--sent ()
  "Return what was sent since this was asked last."
  (prog1 (nreverse vialshoal-support--sent)
    (setq vialshoal-support--sent nil)))

(defun vialshoal-support--take (&rest line)
  "Have LINE come from the engine."
  (vialshoal--take-line (json-serialize line)))

(defmacro vialshoal-support-with-note (opened &rest body)
  "Run BODY in the buffer of a note that the answer OPENED has opened.
There is no engine: what is sent is kept, and the test has lines come."
  (declare (indent 1) (debug t))
  `(with-temp-buffer
     (rename-buffer "*note picnic*" t)
     (setq vialshoal-support--sent nil
           vialshoal-support--now 0.0)
     (cl-letf (((symbol-function 'vialshoal--send) #'vialshoal-support--send)
               ((symbol-function 'vialshoal--now)
                (lambda () vialshoal-support--now))
               ((symbol-function 'vialshoal--tell-place) #'ignore))
       (setq vialshoal--note "picnic")
       (vialshoal--opened ,opened)
       (vialshoal-mode)
       ,@body)))

(defun vialshoal-support--text (&optional buffer)
  "Return all the text of BUFFER, the current one if nil."
  (with-current-buffer (or buffer (current-buffer))
    (save-restriction
      (widen)
      (buffer-substring-no-properties (point-min) (point-max)))))

(defun vialshoal-support--check-mirror ()
  "Check that the mirror has this buffer's text."
  (should (equal (vialshoal-support--text)
                 (vialshoal-support--text vialshoal--mirror))))

(provide 'vialshoal-support)
;;; vialshoal-support.el ends here
