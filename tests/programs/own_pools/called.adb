--  The program calls its own Allocate and Deallocate by name: no line is shown, and no object is made (RM 6.4,
--  13.11).
with Ada.Text_IO;             use Ada.Text_IO;
with System;                  use System;
with System.Storage_Elements; use System.Storage_Elements;
with Block_Pools;             use Block_Pools;

procedure Called is
   type Pool is new Block_Pool with record
      Taken : Integer;
   end record;

   overriding procedure Allocate (X : in out Pool; A : out System.Address; S, L : in Storage_Count);
   overriding procedure Deallocate (X : in out Pool; A : in System.Address; S, L : in Storage_Count);

   procedure Allocate (X : in out Pool; A : out System.Address; S, L : in Storage_Count) is
   begin
      Allocate (Block_Pool (X), A, S, L);
      X.Taken := X.Taken + 1;
   end Allocate;

   procedure Deallocate (X : in out Pool; A : in System.Address; S, L : in Storage_Count) is
   begin
      Deallocate (Block_Pool (X), A, S, L);
      X.Taken := X.Taken - 1;
   end Deallocate;
begin
   declare
      P : Pool (16, 1);
      B : System.Address;
   begin
      Allocate (P, B, 16, 8);
      Put_Line (Boolean'Image (B = System.Null_Address) & Integer'Image (P.Taken));
      Deallocate (P, B, 16, 8);
      Put_Line (Integer'Image (P.Taken));
   end;
end Called;
