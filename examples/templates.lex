\w the
\c Det

\w a
\c Det
\f Sg

\w dog
\c N
\f Sg3

\w dogs
\c N
\f Pl Third

\w barks
\c V
\f Sg3

\w bark
\c V
\f Pl
