;;; fluent-mode.el --- Fluent files, and their language server  -*- lexical-binding: t -*-

;; Version: 2.4.0
;; Package-Requires: ((emacs "27.1"))
;; Keywords: languages
;; URL: https://projectfluent.org
;; SPDX-License-Identifier: Apache-2.0 OR MIT

;;; Commentary:

;; A mode for the files of Project Fluent.  With eglot, which Emacs has from 29 on, it shows the errors of a file as
;; it is typed, lists its messages and terms, and formats it, by the program `ftl-lsp'.

;;; Code:

(defgroup fluent nil
  "Files of Project Fluent."
  :group 'languages)

(defcustom fluent-program "ftl-lsp"
  "The program that is the language server."
  :type 'string)

(defconst fluent--name "[a-zA-Z][a-zA-Z0-9_-]*")

(defconst fluent--keywords
  `(("^#\\{1,3\\}\\(?: .*\\)?$" . font-lock-comment-face)
    (,(concat "^\\(-?" fluent--name "\\) *=") 1 font-lock-function-name-face)
    (,(concat "^ *\\(\\." fluent--name "\\) *=") 1 font-lock-type-face)
    ("^[ \t]*\\(\\*?\\[[^]\n]*\\]\\)" 1 font-lock-constant-face)
    ("{[^{}]*?\\(\"\\(?:[^\"\\\n]\\|\\\\.\\)*\"\\)" 1 font-lock-string-face)
    (,(concat "\\$" fluent--name) . font-lock-variable-name-face)
    ("{[ \t\n]*\\([A-Z][A-Z0-9_-]*\\)[ \t]*(" 1 font-lock-builtin-face))
  "What stands out in a Fluent file.")

(defun fluent--project (folder)
  "The project of FOLDER, if it has an ftl.toml.
That is the nearest folder above with an ftl.toml or a .git; a .git alone is
left to Emacs."
  (let ((root (locate-dominating-file
               folder
               (lambda (above)
                 (or (file-exists-p (expand-file-name "ftl.toml" above))
                     (file-exists-p (expand-file-name ".git" above)))))))
    (when (and root (file-exists-p (expand-file-name "ftl.toml" root)))
      (cons 'transient (expand-file-name root)))))

;;;###autoload
(define-derived-mode fluent-mode prog-mode "Fluent"
  "A mode for the files of Project Fluent."
  (setq-local comment-start "# ")
  (setq-local comment-end "")
  ;; the symbol at point is a whole name, with the sign that the server offers it with
  (modify-syntax-entry ?- "_")
  (modify-syntax-entry ?$ "_")
  (setq-local indent-tabs-mode nil)
  (setq-local tab-width 4)
  (add-hook 'project-find-functions #'fluent--project nil t)
  (setq-local font-lock-defaults '(fluent--keywords t)))

;;;###autoload
(add-to-list 'auto-mode-alist '("\\.ftl\\'" . fluent-mode))

(defvar eglot-server-programs)

(defun fluent--server (&rest _)
  "What eglot runs.  Warns where there is no such program."
  (unless (executable-find fluent-program)
    (display-warning
     'fluent
     (format "No program %s: install ftl-lsp, or set fluent-program"
             fluent-program)))
  (list fluent-program))

(with-eval-after-load 'eglot
  (add-to-list 'eglot-server-programs '(fluent-mode . fluent--server)))

(provide 'fluent-mode)
;;; fluent-mode.el ends here
