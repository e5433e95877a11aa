\w the
\c Det

\w a
\c Det
\f <agr num> = sg

\w dog
\c N
\f <agr num> = sg

\w dogs
\c N
\f <agr num> = pl

; one or many: nothing is said
\w sheep
\c N

\w barks
\c V
\f <agr num> = sg
   <agr per> = third

\w bark
\c V
\f <agr num> = pl
