CREATE TABLE customers (id INTEGER NOT NULL, name VARCHAR, city VARCHAR, points INTEGER);
COPY customers FROM 'customers.csv';
SELECT name, city, points - 400 AS above FROM customers WHERE points > 400 ORDER BY above DESC LIMIT 5;
