--  An Allocate raises an exception of the program where a number is allocated: the allocator raises it, and takes no number (RM 13.11).
with Ada.Finalization;        use Ada.Finalization;
with Ada.Text_IO;             use Ada.Text_IO;
with System;
with System.Storage_Elements; use System.Storage_Elements;
with Block_Pools;             use Block_Pools;

procedure Own_Refused is
   type Guard is new Controlled with null record;

   overriding procedure Finalize (X : in out Guard);

   type Pool is new Block_Pool with record
      Shut : Boolean := False;
   end record;

   overriding procedure Allocate (X : in out Pool; A : out System.Address; S, L : in Storage_Count);

   Denied : exception;

   procedure Finalize (X : in out Guard) is
   begin
      Put_Line ("closed");
   end Finalize;

   procedure Allocate (X : in out Pool; A : out System.Address; S, L : in Storage_Count) is
   begin
      if X.Shut then
         raise Denied;
      end if;
      Allocate (Block_Pool (X), A, S, L);
   end Allocate;
begin
   declare
      P : Pool (8, 1);

      type Ref is access Integer with Storage_Pool => P;

      A : Ref;
   begin
      P.Shut := True;
      begin
         A := new Integer'(1);
      exception
         when Denied =>
            Put_Line ("denied " & Boolean'Image (A = null));
      end;
      P.Shut := False;
      A := new Integer'(2);
      declare
         G : Guard;
      begin
         Put_Line (Integer'Image (A.all));
      end;
   end;
end Own_Refused;
