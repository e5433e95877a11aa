\w the
\c Det

\w a
\c Det
\f Sg

\w dog
\c N
\f Sg3

; one sheep, or many
\w sheep
\c N
\f { Sg / Pl } Third

\w bark
\c V
\f Pl Intransitive

\w sees
\c V
\f Sg3 Transitive

; with an object, or without one
\w eats
\c V
\f Sg3 { Intransitive / Transitive }

\w ate
\c V
\f { Intransitive / Transitive }
