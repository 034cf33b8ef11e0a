#!/usr/bin/env node
// It saves its book, and then its offset, the last timestamp. After a kill between the two it adds an amount twice.
//
//     try-consumer --acks --book 'cat book' -- node book_first.js
//     seed 4, after delivery 28: the book is wrong
const fs = require('fs');
const readline = require('readline');

const load = (name, otherwise) => (fs.existsSync(name) ? fs.readFileSync(name, 'utf8') : otherwise);

function save(name, text) {
    fs.writeFileSync(`${name}.new`, text);
    fs.renameSync(`${name}.new`, name);
}

let last = BigInt(load('offset', '0'));
const book = {}; // the posted sums of each account, which are all that it keeps
for (const it of JSON.parse(load('book', '[]'))) book[it.id] = it;

function add(account, name, amount) {
    const sums = (book[account.id] ||= { id: account.id, debits_posted: '0', credits_posted: '0' });
    sums[name] = String(BigInt(sums[name]) + amount);
}

readline.createInterface({ input: process.stdin }).on('line', (line) => {
    const { body } = JSON.parse(line);
    if (body && BigInt(body.timestamp) > last) {
        const isPosted = body.type === 'single_phase' || body.type === 'two_phase_posted';
        const amount = isPosted ? BigInt(body.transfer.amount) : 0n;
        add(body.debit_account, 'debits_posted', amount);
        add(body.credit_account, 'credits_posted', amount);
        save('book', JSON.stringify(Object.values(book)));
        last = BigInt(body.timestamp);
        save('offset', String(last));
    }
    console.log('ok');
});
