# A cache of Varnish in front of a server of a repository's files at 127.0.0.1:8000. It is started by
#
#     varnishd -F -a 127.0.0.1:8080 -f varnish.vcl -s malloc,1g
#
# An object never changes: its name is its digest. So a reply of code 200 is kept for as long as there is room. The manifest is
# asked for anew each time, and so is an object that wasn't there.
vcl 4.1;

backend files {
    .host = "127.0.0.1";
    .port = "8000";
}

sub vcl_recv {
    if (req.method != "GET") {
        return (synth(405));
    }
    if (req.url ~ "^/cvmfs/[^/]+/data/") {
        return (hash);
    }
    if (req.url ~ "^/cvmfs/[^/]+/\.cvmfspublished$") {
        return (pass);
    }
    return (synth(403));
}

sub vcl_backend_response {
    if (bereq.uncacheable || beresp.status != 200) {
        set beresp.uncacheable = true;
        set beresp.ttl = 0s;
    } else {
        set beresp.ttl = 365d;
    }
    return (deliver);
}
