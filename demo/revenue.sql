CREATE TABLE customers (id INTEGER NOT NULL, name VARCHAR);
CREATE TABLE orders (customer INTEGER, day DATE, amount DECIMAL(12,2));
COPY customers FROM 'customers.csv';
COPY orders FROM 'orders.csv';
SELECT c.name, sum(o.amount) AS revenue
FROM customers AS c JOIN orders AS o ON c.id = o.customer
WHERE o.day >= DATE '2026-01-01'
GROUP BY c.name
ORDER BY revenue DESC LIMIT 10;
