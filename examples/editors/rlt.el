;;; rlt.el --- Findings of rlt in a compilation buffer  -*- lexical-binding: t -*-

;;; Commentary:
;; `M-x rlt' asks for a file or folder and runs `rlt' on it; `M-g n' goes to the next finding.
;; Exponential patterns are errors, others warnings; what wasn't judged is a note, which `M-g n' passes over.

;;; Code:
(require 'compile)

(define-compilation-mode rlt-mode "rlt"
  "Findings of rlt."
  ;; (rlt counts characters)
  (setq-local compilation-error-screen-columns nil)
  (setq-local compilation-error-regexp-alist
              '(("^\\(.+\\):\\([0-9]+\\):\\([0-9]+\\): RLT[134][0-9]+ exponential" 1 2 3 2)
                ("^\\(.+\\):\\([0-9]+\\):\\([0-9]+\\): RLT[134][0-9]+ " 1 2 3 1)
                ("^\\(.+\\):\\([0-9]+\\):\\([0-9]+\\): RLT2[0-9]+ " 1 2 3 0))))

(defun rlt (path)
  "Run rlt on PATH, a file or a folder."
  (interactive "fFile or folder: ")
  (compilation-start (concat "rlt --format concise --strict --quiet -- " (shell-quote-argument (expand-file-name path)))
                     #'rlt-mode))

(provide 'rlt)
;;; rlt.el ends here
