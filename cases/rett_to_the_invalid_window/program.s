        rett    2                               ! 81C82002
