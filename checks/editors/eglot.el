;; The steps with eglot, after the lines of docs/EDITORS.md and steps.el. The root is that of the
;; project, the folder that has `.git`.
(make-steps)
