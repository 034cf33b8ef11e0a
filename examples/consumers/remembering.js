#!/usr/bin/env node
// A consumer that applies each event once: it saves the last timestamp with its book, in one file that it replaces.
//
//     node remembering.js FILE    reads deliveries from standard input; FILE has the book
const fs = require('fs');
const readline = require('readline');

const SUMS = ['debits_pending', 'debits_posted', 'credits_pending', 'credits_posted'];
const file = process.argv[2];
const saved = fs.existsSync(file) && JSON.parse(fs.readFileSync(file, 'utf8'));
const state = saved || { last: '0', applied: 0, ended: false, book: {} };

function save() {
    fs.writeFileSync(`${file}.new`, JSON.stringify(state));
    fs.renameSync(`${file}.new`, file); // (all of it is saved, or none)
}

// Applies a delivery, unless it is a duplicate. Returns the result, and the accounts that it changed.
function take({ body, end }) {
    if (end && !state.ended) {
        state.ended = true;
        return ['end', []];
    }
    // (timestamps and balances are above what a number can hold)
    if (state.ended || BigInt(body.timestamp) <= BigInt(state.last)) return ['duplicate', []];
    const accounts = [body.debit_account, body.credit_account].map((account) => {
        state.book[account.id] = SUMS.map((name) => account[name]);
        return Object.fromEntries(['id', ...SUMS].map((name) => [name, account[name]]));
    });
    state.last = body.timestamp;
    state.applied += 1;
    return ['applied', accounts];
}

readline.createInterface({ input: process.stdin }).on('line', (line) => {
    const { delivery, ...rest } = JSON.parse(line);
    const [result, accounts] = take(rest);
    if (result !== 'duplicate') save();
    console.log(JSON.stringify({ kind: 'expect', delivery, result, applied: state.applied, last: state.last, accounts }));
});
