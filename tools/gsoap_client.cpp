// A client by gSOAP, over what wsdl2h and soapcpp2 make of examples/os.wsdl: for each CALL OSIL OSOL OSPL behind the URL, one line.
#include <iostream>
#include "OSSolverBinding.nsmap"
#include "soapOSSolverBindingProxy.h"

#define CALL(name, parts)                                                                  \
    if (std::string(words[i]) == #name) {                                                  \
        _os__##name asked;                                                                 \
        _os__##name##Response told;                                                        \
        parts;                                                                             \
        if (server.name(&asked, told) == SOAP_OK) std::cout << told.name##Return << '\n';  \
    }

int main(int count, char **words) {
    OSSolverBindingProxy server(words[1], SOAP_IO_KEEPALIVE | SOAP_XML_STRICT);
    std::cout << std::boolalpha;
    for (int i = 2; i + 3 < count; i += 4) {
        std::string osil = words[i + 1], osol = words[i + 2], ospl = words[i + 3];
        CALL(solve, (asked.osil = osil, asked.osol = &osol))
        CALL(getJobID, asked.osol = &osol)
        CALL(send, (asked.osil = osil, asked.osol = &osol))
        CALL(retrieve, asked.osol = &osol)
        CALL(knock, (asked.ospl = &ospl, asked.osol = &osol))
        CALL(kill, asked.osol = &osol)
        if (server.soap->error) std::cout << "fault " << *soap_faultcode(server.soap) << ' ' << server.soap_fault_string() << '\n';
    }
}
