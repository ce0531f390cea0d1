;;; lt-mode.el --- Theories of lt -*- lexical-binding: t -*-

;;; Commentary:

;; Colours for theories of lt, and M-x compile that jumps to the place that is refused.
;; (add-to-list 'load-path "CHECKOUT/editor/emacs") (require 'lt-mode)

;;; Code:

(require 'compile)

(defconst lt-mode--folder
  (file-name-directory (or load-file-name buffer-file-name))
  "The folder of this file.")

(defconst lt-commands
  '("type" "const" "axiom" "def" "typedef" "lemma" "law" "corr" "relator" "property" "domain"
    "rule" "lifting" "lifting_typedef" "quotient_type" "lift" "parametric" "param_rule" "equiv"
    "implies" "carry" "abs_eq" "rep_eq")
  "The words that begin an item or a command.")

(defconst lt-rules
  '("assume" "weaken" "refl" "sym" "trans" "cong" "abs" "beta" "eta" "eqmp" "impI" "mp" "allI"
    "allE" "iff" "inst" "tinst" "select" "ccontr" "thm")
  "The words that begin a line of a lemma.")

(defvar lt-mode-syntax-table
  (let ((table (make-syntax-table)))
    (modify-syntax-entry ?# "<" table)
    (modify-syntax-entry ?\n ">" table)
    (modify-syntax-entry ?_ "w" table)
    (modify-syntax-entry ?' "'" table)
    (dolist (sign '(?\\ ?$ ?% ?: ?\; ?= ?\"))
      (modify-syntax-entry sign "." table))
    table)
  "Comments, brackets and letters of theories.")

;; A word is a command or a rule by its place alone: where an item or a line begins.
(defconst lt-font-lock-keywords
  `(("\\(?:^\\|[;}]\\)[ \t]*\\(plain\\|theory\\)[ \t]+[0-9]" 1 font-lock-preprocessor-face)
    (,(concat "\\(?:^\\|[;}]\\)[ \t]*" (regexp-opt lt-commands t) "\\_>[ \t]+\\(\\w+\\)")
     (1 font-lock-keyword-face) (2 font-lock-function-name-face))
    (,(concat "\\(?:^\\|[;{]\\)[ \t]*" (regexp-opt lt-rules t) "\\_>") 1 font-lock-builtin-face)
    ("'\\w+" . font-lock-type-face)
    ("%\\w+" . font-lock-variable-name-face)
    ("([ \t]*[$\\][ \t]*\\(\\w+\\)" 1 font-lock-variable-name-face)
    ("\\_<\\(bool\\|fun\\)\\_>" . font-lock-type-face)
    ("\\_<\\(eq\\|imp\\|all\\|eps\\)\\_>" . font-lock-constant-face))
  "What has a colour.")

(add-to-list 'compilation-error-regexp-alist-alist
             '(lt "^\\([^\n]+?\\):\\([0-9]+\\):\\([0-9]+\\): [A-Z]" 1 2 3 2))
(add-to-list 'compilation-error-regexp-alist 'lt)

;;;###autoload
(define-derived-mode lt-mode prog-mode "lt"
  "Theories of lt."
  (setq-local comment-start "# ")
  (setq-local comment-start-skip "#+[ \t]*")
  (setq-local font-lock-defaults '(lt-font-lock-keywords))
  (setq-local indent-line-function #'indent-relative)
  (when buffer-file-name
    (setq-local compile-command
                (mapconcat #'shell-quote-argument
                           (list (expand-file-name "../check" (file-truename lt-mode--folder))
                                 (file-name-nondirectory buffer-file-name))
                           " "))))

;;;###autoload
(add-to-list 'auto-mode-alist '("\\.lt\\'" . lt-mode))

(provide 'lt-mode)

;;; lt-mode.el ends here
