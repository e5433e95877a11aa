\w the
\c Det

\w goose
\c N
\f <agr num> = sg
   <agr num> = pl

\w dog
\c N
\f <arg num> = sg

\w sheep
\c N
\f <agr num> = sg

\w sheep
\c N
\f <agr num> = pl

\w barks
\c V
\f <agr num> = sg

\w bark
\c V
\f <agr num> = pl

\w slept
\c V
