;;; geos.el --- geos texts and sources, by `geos lsp`  -*- lexical-binding: t; -*-
;; For Emacs 29: load this file, and start eglot in a buffer. `geos` has to be on the PATH.
(define-derived-mode geos-mode prog-mode "geos" "A text or a source of geos.")
(add-to-list 'auto-mode-alist '("\\.\\(asm\\|tkv\\)\\'" . geos-mode))
(with-eval-after-load 'eglot
  (add-to-list 'eglot-server-programs '(geos-mode . ("geos" "lsp"))))
(provide 'geos)
;;; geos.el ends here
