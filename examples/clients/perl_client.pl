# The five requests of a client by Net::OAuth2.
#
# Words: one of the ways parameters, header and header-encoded, a client's identifier and its secret. The variable AUTH has
# the server's address. Prints a line for each request: `ok`, or the status and the error that came instead.
use strict;
use warnings;
use Digest::SHA qw(sha256);
use HTTP::Request::Common qw(POST);
use JSON::MaybeXS qw(decode_json);
use LWP::UserAgent;
use MIME::Base64 qw(encode_base64 encode_base64url);
use Net::OAuth2::Profile::WebServer;
use URI::Escape qw(uri_escape);

$| = 1;
my ($way, $id, $secret) = @ARGV;
my $auth = $ENV{AUTH};
my $in_parameters = $way eq 'parameters';

# the header is made without form-encoding, so the profile gets the secret encoded
my $sent_secret = $way eq 'header-encoded' ? uri_escape($secret) : $secret;
my $agent = LWP::UserAgent->new(max_redirect => 0, timeout => 20);

sub profile {
    return Net::OAuth2::Profile::WebServer->new(
        client_id => $id,
        client_secret => $sent_secret,
        secrets_in_params => $in_parameters ? 1 : 0,
        site => $auth,
        authorize_path => '/authorize',
        access_token_path => '/token',
        refresh_token_path => '/token',
        redirect_uri => 'https://app.example/cb',
        scope => 'read write',
        @_,
    );
}
my $user = profile();
my $token;

# outcome NAME SUB: does a request, and prints what came of it
sub outcome {
    my ($name, $do) = @_;
    if (eval { $do->(); 1 }) {
        print "$name ok\n";
        return;
    }
    my ($status) = $@ =~ /received error: (\d+)/;
    my ($error) = $@ =~ /"error":"(\w+)"/;
    print defined $status ? "$name $status $error\n" : "$name $@";
}

# asked PATH TEXT: a request that the library has no call for
sub asked {
    my ($path, $text) = @_;
    my @form = (token => $text, $in_parameters ? (client_id => $id, client_secret => $secret) : ());
    my $request = POST $auth . $path, \@form;
    $request->header(Authorization => 'Basic ' . encode_base64("$id:$sent_secret", '')) unless $in_parameters;
    my $reply = $agent->request($request);
    die 'received error: ' . $reply->status_line . "\n" . $reply->content . "\n" unless $reply->is_success;
    return $reply->content;
}

sub is_active {
    return decode_json(asked('/introspect', $token ? $token->access_token : 'none'))->{active};
}

outcome(code => sub {
    open my $random, '<:raw', '/dev/urandom' or die "no random bytes\n";
    read $random, my $drawn, 32;
    my $verifier = encode_base64url($drawn);
    my $url = $user->authorize(
        state => 'xyz',
        code_challenge => encode_base64url(sha256($verifier)),
        code_challenge_method => 'S256',
    );
    my $reply = $agent->get($url, Cookie => 'session=of-ann');
    my %sent_back = URI->new($reply->header('Location'))->query_form;
    $token = $user->get_access_token($sent_back{code}, code_verifier => $verifier);
});
outcome(refresh => sub {
    $token ||= Net::OAuth2::AccessToken->new(profile => $user, access_token => 'none', refresh_token => 'none');
    my $before = $token->refresh_token;
    $user->update_access_token($token);
    die "no new refresh token\n" if $token->refresh_token eq $before;
});
outcome(credentials => sub {
    profile(grant_type => 'client_credentials')->get_access_token(undef, scope => 'read');
});
outcome(introspect => sub { is_active() or die "the token is not active\n" });
outcome(revoke => sub {
    asked('/revoke', $token ? $token->refresh_token : 'none');
    die "the token is still active\n" if is_active();
});
