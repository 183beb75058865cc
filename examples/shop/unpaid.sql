SELECT "o"."id" AS "order", "c"."name" AS "customer"
FROM "orders" AS "o", "customers" AS "c"
WHERE "o"."customer" = "c"."id" AND NOT "o"."paid"
