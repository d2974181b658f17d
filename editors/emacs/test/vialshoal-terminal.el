;;; vialshoal-terminal.el --- An Emacs in a terminal  -*- lexical-binding: t; -*-

;;; Commentary:

;; For the tests: an Emacs in a terminal of its own, which is typed into as
;; a user does, and asked by its server.

;;; Code:

(require 'server)
(require 'vialshoal-engine-support)

(defvar vialshoal-terminal--prepares nil
  "What the Emacs evaluates before it opens the note.")

(defmacro vialshoal-terminal-with (person arguments &rest body)
  "Run BODY with an Emacs in which PERSON has opened the note picnic.
ARGUMENTS are the log and the link."
  (declare (indent 2) (debug t))
  `(let* ((server-socket-dir vialshoal-engine--folder)
          (child (vialshoal-terminal--start ,person ,@arguments)))
     (unwind-protect
         (progn
           (vialshoal-engine--wait
            (lambda ()
              (ignore-errors
                (vialshoal-terminal--eval
                 '(and vialshoal--is-open (not buffer-read-only))))))
           ,@body)
       (delete-process child))))

(defun vialshoal-terminal--start (person &optional log link)
  "Return the process of an Emacs in which PERSON opens the note picnic.
LOG and LINK are as for `vialshoal-open'."
  (let* ((process-environment
          (append (list (format "VIALSHOAL_DATA=%s/%s"
                                vialshoal-engine--folder person)
                        (format "VIALSHOAL_NAME=%s" person)
                        "TERM=xterm")
                  process-environment))
         (child
          (make-process
           :name person :connection-type 'pty :coding 'utf-8-unix
           :noquery t :filter #'ignore
           :command
           (list (expand-file-name invocation-name invocation-directory)
                 "-nw" "-Q" "-l" (locate-library "vialshoal")
                 "--eval"
                 (format "%S" `(progn
                                 (setq server-socket-dir ,server-socket-dir
                                       server-name "child"
                                       inhibit-startup-screen t
                                       vialshoal-command ',vialshoal-command)
                                 (server-start)
                                 ,vialshoal-terminal--prepares
                                 (vialshoal-open "picnic" ,log ,link)))))))
    (set-process-window-size child 24 100)
    child))

(defun vialshoal-terminal--eval (form)
  "Return what the Emacs answers to FORM in its note's buffer."
  (server-eval-at "child" `(with-current-buffer "*note picnic*" ,form)))

(defun vialshoal-terminal--type (child keys)
  "Type KEYS into CHILD."
  (process-send-string child keys))

(defun vialshoal-terminal--waits-for (words)
  "Wait until the Emacs asks WORDS in its last line."
  (vialshoal-engine--wait
   (lambda ()
     (string-match-p
      words (or (vialshoal-terminal--eval
                 '(or (current-message)
                      (and (active-minibuffer-window)
                           (with-current-buffer
                               (window-buffer (active-minibuffer-window))
                             (buffer-substring-no-properties
                              (point-min) (point-max))))))
                "")))))

(defun vialshoal-terminal--has-heard (text)
  "Wait until TEXT of others has come to the Emacs, or waits there."
  (vialshoal-engine--wait
   (lambda ()
     (vialshoal-terminal--eval
      `(save-excursion
         (goto-char (point-min))
         (or (search-forward ,text nil t)
             (cl-some (lambda (line) (string-search ,text line))
                      vialshoal--lines)))))))

(provide 'vialshoal-terminal)
;;; vialshoal-terminal.el ends here
