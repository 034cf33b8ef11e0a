#!/usr/bin/env node
// It handles all lines that wait side by side. Each reads the book, adds its amount and writes the book: the last one to write
// undoes what the others have written.
//
//     try-consumer --batches 8 --book 'cat book' -- node out_of_order.js
//     without faults, after delivery 22: the book is wrong
const fs = require('fs/promises');

async function add(book, account, name, amount) {
    const sums = (book[account.id] ||= { id: account.id, debits_posted: '0', credits_posted: '0' });
    sums[name] = String(BigInt(sums[name]) + amount);
}

async function handle({ body }) {
    const state = JSON.parse(await fs.readFile('state', 'utf8').catch(() => '{"seen":[],"book":{}}'));
    if (!body || state.seen.includes(body.timestamp)) return;
    const isPosted = body.type === 'single_phase' || body.type === 'two_phase_posted';
    const amount = isPosted ? BigInt(body.transfer.amount) : 0n;
    await add(state.book, body.debit_account, 'debits_posted', amount);
    await add(state.book, body.credit_account, 'credits_posted', amount);
    state.seen.push(body.timestamp);
    for (const [name, value] of [['book', Object.values(state.book)], ['state', state]]) {
        await fs.writeFile(`${name}.${body.timestamp}`, JSON.stringify(value));
        await fs.rename(`${name}.${body.timestamp}`, name);
    }
}

const waiting = [];
let done = Promise.resolve();

async function handleWaiting() {
    const deliveries = waiting.splice(0);
    await Promise.all(deliveries.map(handle));
    if (deliveries.length) console.log(deliveries[deliveries.length - 1].delivery);
}

require('readline').createInterface({ input: process.stdin }).on('line', (line) => {
    waiting.push(JSON.parse(line));
    done = done.then(handleWaiting);
});
