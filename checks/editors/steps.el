;; The steps in emacs, for eglot.el and lsp_mode.el: `emacs -nw -q -l LINES -l steps.el -l ..`, with
;; LINES those of docs/EDITORS.md. The folder PLACE of the environment has `steps`, and a.proto and
;; b.proto below `work`; the file `shown` gets a line for each step. Both clients show diagnostics by
;; flymake.
(require 'json)
(require 'flymake)

(defvar place (getenv "PLACE"))
(defvar wanted
  (with-temp-buffer
    (insert-file-contents (expand-file-name "steps" place))
    (json-parse-buffer :array-type 'list)))

(defun of-flymake (it)
  "The line and the column of a diagnostic, from 0, and its text."
  (goto-char (flymake-diagnostic-beg it))
  ;; Both write the source and the code before the text of the server.
  (list (1- (line-number-at-pos)) (current-column)
        (replace-regexp-in-string "^proto \\[P[0-9]+\\]: \\| \\[P[0-9]+\\]$" "" (flymake-diagnostic-text it))))

(defun shown ()
  "The diagnostics of a.proto, in the order of their places."
  (when (get-buffer "a.proto")
    (with-current-buffer "a.proto"
      (save-excursion
        (mapcar #'of-flymake (sort (flymake-diagnostics)
                                   (lambda (x y) (< (flymake-diagnostic-beg x) (flymake-diagnostic-beg y)))))))))

(defun path-of (file)
  (expand-file-name file (expand-file-name "work" place)))

(defun opened (file)
  (find-file-other-window (path-of file)))

(defun replaced (file from to)
  (pop-to-buffer file)
  (goto-char (point-min))
  (while (search-forward from nil t) (replace-match to t t)))

(defun emptied (file)
  (pop-to-buffer file)
  (erase-buffer))

(defun undone (file)
  (pop-to-buffer file)
  (setq last-command nil)
  (undo))

(defun closed (file)
  (pop-to-buffer file)
  (set-buffer-modified-p nil)
  (kill-buffer-and-window))

(defvar steps
  '(("open" (opened "a.proto") (opened "b.proto"))
    ("break" (replaced "b.proto" "Item" "Itm"))
    ("mend" (undone "b.proto"))
    ("empty" (emptied "b.proto"))
    ("fill" (undone "b.proto"))
    ("rename in b" (replaced "b.proto" "Item" "Part"))
    ("rename in a" (replaced "a.proto" "Item" "Part"))
    ("close b" (closed "b.proto"))
    ("save b" (opened "b.proto") (replaced "b.proto" "Item" "Part") (save-buffer) (closed "b.proto"))
    ("write b" (call-process "cp" nil nil nil (expand-file-name "b-before.proto" place) (path-of "b.proto")))))
(defvar name nil "The step that is made.")
(defvar acts nil "What is left of it.")
(defvar end nil "When no more is waited for.")

(defun act ()
  "Makes the next act of a step. It is a command of the user, since clients look when a command is done."
  (interactive)
  (eval (pop acts)))

(defun begin ()
  "Begins the next step, or ends emacs."
  (if (null steps)
      (kill-emacs)
    (setq name (caar steps) acts (cdr (pop steps)) end (+ (float-time) 10))))

(defun look ()
  "Presses the key of the next act, or looks whether the step has come to its end."
  (cond (acts (push 'f5 unread-command-events))
        ((or (equal (shown) (gethash name wanted)) (< end (float-time)))
         (write-region (concat (json-serialize (vector name (vconcat (mapcar #'vconcat (shown))))) "\n")
                       nil (expand-file-name "shown" place) t 'silent)
         (begin))))

(defun make-steps ()
  (global-set-key [f5] #'act)
  (begin)
  ;; Between two looks emacs is idle, and sends changes.
  (run-with-timer 0.1 0.1 #'look))
