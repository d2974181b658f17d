;;; lint.el --- Runs checkdoc and package-lint  -*- lexical-binding: t -*-

;;; Commentary:

;; bin/lint runs this in batch mode over the files of the command line, and reads the status: 1 where something is wrong.

;;; Code:

(require 'checkdoc)
(require 'package-lint)

(defvar lint-found nil "What is wrong, in lines.")

;; The first file is the package's, and the others belong to it.
(setq package-lint-main-file (expand-file-name (car command-line-args-left)))

;; The package has no page of its own, and Debian's package-lint is older than the Emacs that is needed.
(defvar lint-passed-over '("should have a Homepage or URL header" "uninstallable in all released Emacs versions")
  "What isn't mended: parts of the words.")

(defun lint-file (file)
  "Look at FILE."
  (with-current-buffer (find-file-noselect file)
    (pcase-dolist (`(,line ,column ,kind ,words) (package-lint-buffer))
      (unless (seq-some (lambda (one) (string-search one words)) lint-passed-over)
        (push (format "%s:%s:%s: %s: %s" file line column kind words) lint-found)))
    (let ((checkdoc-autofix-flag nil)
          (checkdoc-spellcheck-documentation-flag nil)
          (checkdoc-create-error-function
           (lambda (words start _end &optional _unfixable)
             (push (format "%s:%s: checkdoc: %s" file (line-number-at-pos (or start 1)) words) lint-found)
             nil)))
      (checkdoc-current-buffer t))))

(mapc #'lint-file command-line-args-left)
(dolist (line (nreverse lint-found))
  (princ (concat line "\n")))
(kill-emacs (if lint-found 1 0))

;;; lint.el ends here
