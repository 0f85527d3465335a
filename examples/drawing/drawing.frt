; A drawing tool: a click is a point (X Y). The pen draws a path, `undo` takes its last point away, and `measure` measures
; a path of its own, which begins anew each time that the tool is taken up.
(define-event click)
(define-event tool)
(define-event undo)

(define current (hold tool 'pen))
(define measuring (equal? current 'measure))

(define (between a b)
  (+ (abs (- (first a) (first b))) (abs (- (list-ref a 1) (list-ref b 1)))))

; the length of a path, along the axes
(define (walked points)
  (first (for/fold ((so-far (list 0 '()))) ((p points))
           (list (if (null? (list-ref so-far 1)) 0 (+ (first so-far) (between p (list-ref so-far 1)))) p))))

(define drawn (filter-e (lambda (p) (not measuring)) click))
(define points
  (collect-b (merge-e (map-e (lambda (u) 'undo) undo) drawn) '()
    (lambda (step points)
      (cond ((list? step) (cons step points))
            ((null? points) points)
            (else (cdr points))))))

(show tool current)
(show path (reverse points))
(show distance (walked points))
(show measured (if measuring (walked (collect-b click '() (lambda (p ps) (cons p ps)))) 'off))
(show hint (map-e (lambda (t) (string-append "tool: " (symbol->string t))) tool))
