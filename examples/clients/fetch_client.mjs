// The five requests of a client by fetch, which Node has by itself.
//
// Words: one of the ways basic, basic-encoded and parameters, a client's identifier and its secret. The variable AUTH has
// the server's address. Prints a line for each request: `ok`, or the status and the error that came instead.
import { createHash, randomBytes } from 'node:crypto';

const [way, id, secret] = process.argv.slice(2);
const auth = process.env.AUTH;
const back = 'https://app.example/cb';

// form-encodes a text, as URLSearchParams does it for the value of a parameter
const encoded = (text) => new URLSearchParams({ x: text }).toString().slice(2);
const sent = way === 'basic-encoded' ? encoded(secret) : secret;
const headers = way === 'parameters' ? {} : { Authorization: `Basic ${btoa(`${id}:${sent}`)}` };
const credentials = way === 'parameters' ? { client_id: id, client_secret: secret } : {};

class Refused extends Error {}

// makes a request as the client. URLSearchParams sets Content-Type, and its length is known, so it is not sent in chunks
async function post(path, form) {
    const reply = await fetch(auth + path, { method: 'POST', headers, body: new URLSearchParams({ ...form, ...credentials }) });
    const text = await reply.text();
    const told = text ? JSON.parse(text) : {};
    if (!reply.ok) throw new Refused(`${reply.status} ${told.error}`);
    return told;
}

let tokens = { access_token: 'none', refresh_token: 'none' };
const isActive = async () => (await post('/introspect', { token: tokens.access_token })).active;

const steps = {
    async code() {
        const verifier = randomBytes(32).toString('base64url');
        const query = new URLSearchParams({
            response_type: 'code',
            client_id: id,
            redirect_uri: back,
            scope: 'read write',
            state: 'xyz',
            code_challenge: createHash('sha256').update(verifier).digest('base64url'),
            code_challenge_method: 'S256',
        });
        const agent = { redirect: 'manual', headers: { Cookie: 'session=of-ann' } };
        const location = new URL((await fetch(`${auth}/authorize?${query}`, agent)).headers.get('location'));
        const code = location.searchParams.get('code');
        tokens = await post('/token', { grant_type: 'authorization_code', code, redirect_uri: back, code_verifier: verifier });
    },
    async refresh() {
        tokens = await post('/token', { grant_type: 'refresh_token', refresh_token: tokens.refresh_token });
    },
    async credentials() {
        await post('/token', { grant_type: 'client_credentials', scope: 'read' });
    },
    async introspect() {
        if (!(await isActive())) throw new Refused('not active');
    },
    async revoke() {
        await post('/revoke', { token: tokens.refresh_token });
        if (await isActive()) throw new Refused('still active');
    },
};
for (const [name, step] of Object.entries(steps)) {
    try {
        await step();
        console.log(name, 'ok');
    } catch (refused) {
        if (!(refused instanceof Refused)) throw refused;
        console.log(name, refused.message);
    }
}
