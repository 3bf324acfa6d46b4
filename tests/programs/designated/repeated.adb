--  An Allocate gives the address of a block that holds a number: the run stops (RM 13.11).
with Ada.Text_IO;             use Ada.Text_IO;
with System;
with System.Storage_Elements; use System.Storage_Elements;
with Block_Pools;             use Block_Pools;

procedure Repeated is
   type Keep is new Block_Pool with record
      Spare : System.Address;
      Has   : Boolean := False;
   end record;

   overriding procedure Allocate (X : in out Keep; A : out System.Address; S, L : in Storage_Count);

   procedure Allocate (X : in out Keep; A : out System.Address; S, L : in Storage_Count) is
   begin
      if not X.Has then
         Allocate (Block_Pool (X), X.Spare, S, L);
         X.Has := True;
      end if;
      A := X.Spare;
   end Allocate;
begin
   declare
      P : Keep (8, 2);

      type Ref is access Integer with Storage_Pool => P;

      A, B : Ref;
   begin
      A := new Integer'(1);
      Put_Line (Integer'Image (A.all));
      B := new Integer'(2);
      Put_Line (Integer'Image (B.all));
   end;
end Repeated;
