--  The library's operations are called by name, in the main procedure: a pool that is full, a size that is too large,
--  addresses that never come again, and one that is not out, at which the run stops (RM 13.11).
with Ada.Text_IO; use Ada.Text_IO;
with System;      use System;
with Block_Pools; use Block_Pools;

procedure Asked is
   P       : Block_Pool (16, 2);
   A, B, C : System.Address;
begin
   Allocate (P, A, 16, 8);
   Allocate (P, B, 0, 8);
   Put_Line (Boolean'Image (A = B) & Boolean'Image (C = System.Null_Address));
   begin
      Allocate (P, C, 8, 8);
   exception
      when Storage_Error =>
         Put_Line ("full");
   end;
   C := A;
   Deallocate (P, A, 16, 8);
   begin
      Allocate (P, A, 17, 8);
   exception
      when Storage_Error =>
         Put_Line ("large");
   end;
   Put_Line (Boolean'Image (A = C));
   Allocate (P, A, 16, 8);
   Put_Line (Boolean'Image (A = C) & Boolean'Image (A /= B));
   Deallocate (P, B, 1, 1);
   Deallocate (P, A, 8, 8);
   Deallocate (P, C, 16, 8);
end Asked;
