struct Late; struct Early { Late* late; }; struct Late { Early early; virtual Late* self(); };
