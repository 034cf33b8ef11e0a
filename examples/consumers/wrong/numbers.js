#!/usr/bin/env node
// It keeps balances as numbers, which are exact up to 2^53.
//
//     try-consumer -- node numbers.js
//     without faults, delivery 3: account 2147483647 has debits_posted 9007203549708288
const fs = require('fs');
const readline = require('readline');

const SUMS = ['debits_pending', 'debits_posted', 'credits_pending', 'credits_posted'];
let state = { applied: 0, last: '0', ended: false, book: {} };
if (fs.existsSync('state')) state = JSON.parse(fs.readFileSync('state', 'utf8'));

readline.createInterface({ input: process.stdin }).on('line', (line) => {
    const { delivery, end, body } = JSON.parse(line);
    const accounts = [];
    let result = 'duplicate';
    if (end && !state.ended) {
        state.ended = true;
        result = 'end';
    } else if (body && BigInt(body.timestamp) > BigInt(state.last)) {
        result = 'applied';
        for (const account of [body.debit_account, body.credit_account]) {
            const sums = Object.fromEntries(SUMS.map((name) => [name, Number(account[name])]));
            state.book[account.id] = sums;
            accounts.push({ id: account.id, ...sums });
        }
        state.last = body.timestamp;
        state.applied += 1;
    }
    fs.writeFileSync('state.new', JSON.stringify(state));
    fs.renameSync('state.new', 'state');
    console.log(JSON.stringify({ delivery, result, applied: state.applied, last: state.last, accounts }));
});
