\w the
\c Det

\w dog
\c N
\f Sg3

\w sheep
\c N
\f Third

\w barks
\c V
\f Sg3 Intransitive

\w sees
\c V
\f Sg3 Transitive
