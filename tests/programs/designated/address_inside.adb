--  The library's Allocate sets an address that an access value designates (RM 13.11).
with Ada.Text_IO; use Ada.Text_IO;
with System;      use System;
with Block_Pools; use Block_Pools;

procedure Address_Inside is
   P : Block_Pool (8, 1);

   type Place is access System.Address;

   X : Place := new System.Address;
begin
   Put_Line (Boolean'Image (X.all = System.Null_Address));
   Allocate (P, X.all, 8, 8);
   Put_Line (Boolean'Image (X.all = System.Null_Address));
   Deallocate (P, X.all, 8, 8);
   begin
      Allocate (P, X.all, 9, 8);
   exception
      when Storage_Error =>
         Put_Line ("too large");
   end;
end Address_Inside;
