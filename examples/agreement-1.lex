\w the
\c Det

\w a
\c Det

\w dog
\c N

\w dogs
\c N

\w barks
\c V

\w bark
\c V
