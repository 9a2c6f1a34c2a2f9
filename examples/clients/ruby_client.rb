# The five requests of a client by the gem oauth2.
#
# Words: one of the ways request_body, basic_auth and basic_auth-encoded, a client's identifier and its secret. The
# variable AUTH has the server's address. Prints a line for each request: `ok`, or the status and the error that came.
require 'base64'
require 'digest'
require 'json'
require 'net/http'
require 'oauth2'
require 'securerandom'
require 'uri'

$stdout.sync = true
WAY, IDENTIFIER, SECRET = ARGV
AUTH = ENV.fetch('AUTH')
BACK = 'https://app.example/cb'.freeze
SCHEME = WAY.sub('-encoded', '').to_sym

# the header is made without form-encoding, so the client gets the secret encoded
SENT = WAY.end_with?('-encoded') ? URI.encode_www_form_component(SECRET) : SECRET

# Does a request, and prints what came of it.
def outcome(name)
  yield
  puts "#{name} ok"
rescue OAuth2::Error => e
  puts "#{name} #{e.response.status} #{e.code}"
end

# A request that the gem has no call for.
def asked(path, text)
  form = { token: text }
  headers = {}
  if SCHEME == :request_body
    form.update(client_id: IDENTIFIER, client_secret: SECRET)
  else
    headers['Authorization'] = OAuth2::Authenticator.encode_basic_auth(IDENTIFIER, SENT)
  end
  CLIENT.request(:post, AUTH + path, body: form, headers: headers)
end

def active?
  JSON.parse(asked('/introspect', @token ? @token.token : 'none').body)['active']
end

CLIENT = OAuth2::Client.new(IDENTIFIER, SENT, site: AUTH, authorize_url: '/authorize', token_url: '/token',
                                                            auth_scheme: SCHEME, redirect_uri: BACK)

outcome('code') do
  verifier = SecureRandom.urlsafe_base64(32, false)
  challenge = Base64.urlsafe_encode64(Digest::SHA256.digest(verifier), padding: false)
  url = URI(CLIENT.auth_code.authorize_url(scope: 'read write', state: 'xyz', code_challenge: challenge,
                                           code_challenge_method: 'S256'))
  reply = Net::HTTP.start(url.host, url.port, use_ssl: true) { |http| http.get(url.request_uri, 'Cookie' => 'session=of-ann') }
  code = URI.decode_www_form(URI(reply['Location']).query).to_h['code']
  @token = CLIENT.auth_code.get_token(code, code_verifier: verifier)
end
outcome('refresh') do
  @token ||= OAuth2::AccessToken.new(CLIENT, 'none', refresh_token: 'none')
  before = @token.refresh_token
  @token = @token.refresh!
  raise 'no new refresh token' if @token.refresh_token == before
end
outcome('credentials') { CLIENT.client_credentials.get_token(scope: 'read') }
outcome('introspect') { raise 'the token is not active' unless active? }
outcome('revoke') do
  asked('/revoke', @token.refresh_token)
  raise 'the token is still active' if active?
end
