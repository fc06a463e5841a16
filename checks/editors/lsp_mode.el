;; The steps with lsp-mode, after the lines of docs/EDITORS.md and steps.el. Diagnostics are shown by
;; flycheck. Version 8 shows those of the buffer in which the user is, so each step ends with a wait
;; and a change to a.proto. It asks for the root: here is the answer.
(require 'flycheck)

(defun of-flycheck (it)
  "The line and the column of a diagnostic, from 0, and its text."
  (list (1- (flycheck-error-line it)) (1- (flycheck-error-column it)) (flycheck-error-message it)))

(defun shown ()
  "The diagnostics of a.proto, in the order of their places."
  (when (get-buffer "a.proto")
    (with-current-buffer "a.proto"
      (mapcar #'of-flycheck (sort (copy-sequence flycheck-current-errors) #'flycheck-error-<)))))

(lsp-workspace-folders-add (expand-file-name "work" place))
(setq steps (mapcar (lambda (it) (append it '((sit-for 1) (pop-to-buffer "a.proto")))) steps))
(make-steps)
