import "/lib/greet.mjs";
