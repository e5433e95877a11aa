\w dog
\c N
\f <agr num = sg
