\w the
\c Det
\w dog
\c N
\f <agr num> = sg
\w dogs
\c N
\f <agr num> = pl
\w barks
\c V
\f <agr num> = sg <agr per> = third
