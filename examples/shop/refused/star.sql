SELECT * FROM "customers" AS "c"
